# newfile.sh, to be sourced: what move.sh and list.sh share, whose programs write a new file into the folder `here` of their room.
# The sample in edition 2: with this issue, and altered as AWK says.
of_issue() { # ISSUE TABLE [AWK]
    awk "/^host=/ { \$0 = \$0 \" issue=$1\" } ${3-} 1" "$sample" >"$room/text"
    "$maketable" table "$room/text" >"$2"
}
files_here() { (cd "$room/here" && find . -mindepth 1 | LC_ALL=C sort | tr '\n' ' '); }
# Something that stands where a new file should go.
put_there() { # WHAT NAME
    case $1 in
    file) echo mine >"$2" ;;
    folder) mkdir "$2" ;;
    link) ln -s ../table "$2" ;;
    loose) ln -s ../none "$2" ;;
    fifo) mkfifo "$2" ;;
    esac
}
