%% Erlang's diameter as a voicemail box: User-Data-Requests of Sh and their answers by sh.dia. Each document that comes is read by xmerl, by both of its
%% parsers, and compared with the table on disk. One connection carries Cx as well, by which a line is registered and removed as by call servers.
%% erl -noshell -s voicemail run ADDRESS PORT EDITION TABLE: EDITION is the base standard that the daemon states of its peer.
-module(voicemail).
-export([run/1]).

-include_lib("diameter/include/diameter.hrl").
-include_lib("xmerl/include/xmerl.hrl").

-define(STATE, 11).
-define(NAME, 12).

run(Arguments) ->
    [Address, Port, Edition, Table] = [atom_to_list(One) || One <- Arguments],
    client:run("voicemail.erl", fun() -> trials(Address, list_to_integer(Port), list_to_integer(Edition), Table) end).

trials(Address, Port, Edition, Table) ->
    put(documents, 0),
    put(others, 0),
    ok = client:service(both, true, vendor, [cx, sh]),
    ok = client:service(box, true, auth, [sh]),
    ok = client:service(lenient, false, vendor, [sh]),
    [client:connect(Name, Address, Port) || Name <- [both, box, lenient]],
    greeted(both),
    {ok, Before} = file:read_file(Table),
    [tell_line(Line) || Line <- lines(Table)],
    [taken(One, line_of("sip:desk@isle", Table)) || One <- unusual(Edition)],
    [turned_away(One) || One <- wrong(Edition)],
    other_references(),
    unserved(),
    {ok, Before} = file:read_file(Table),
    say("the table on disk is as it was before", []),
    life(Table),
    [ok = diameter:stop_service(Name) || Name <- [both, box, lenient]],
    io_lib:format("~b documents, each read as the table has it, and ~b other answers; all decoded without an error", [get(documents), get(others)]).

say(Format, Values) -> io:format("voicemail.erl: " ++ Format ++ "~n", Values).

counted(What) -> put(What, get(What) + 1).

%% The daemon names both applications in its CEA, a relay its own.
greeted(Name) ->
    [Connection | _] = diameter:service_info(Name, connections),
    Capabilities = proplists:get_value(caps, Connection),
    {_, Host} = proplists:get_value(origin_host, Capabilities),
    {_, Groups} = proplists:get_value(vendor_specific_application_id, Capabilities),
    {_, Own} = proplists:get_value(auth_application_id, Capabilities),
    Named = {Host, Own ++ [Number || Group <- Groups, Number <- numbers(Group)]},
    say("the peer is ~p", [Named]),
    true = lists:member(Named, [{"hss.isle", [16777216, 16777217]}, {"relay.isle", [4294967295]}]).

numbers(Group) -> lists:append([Number || Number <- tuple_to_list(Group), is_list(Number)]) -- [10415].

%% ---- what the table has

lines(Table) ->
    {ok, <<_:512/binary, Records/binary>>} = file:read_file(Table),
    [line(Record) || <<Record:512/binary>> <= Records].

%% Public identity, the state that is told, and the server's name.
line(Record) ->
    <<_:8/binary, State, Bits, _:3/binary, PublicLength, _, NameLength, Public:PublicLength/binary, _/binary>> = Record,
    {Public, told_state(State, Bits band 1), characters(binary:part(Record, 272, NameLength))}.

told_state(0, 1) -> 3;
told_state(State, _) -> State.

characters(Bytes) ->
    case unicode:characters_to_list(Bytes) of
        Text when is_list(Text) -> Text;
        _ -> not_utf8
    end.

line_of(Public, Table) -> lists:keyfind(list_to_binary(Public), 1, lines(Table)).

%% What a document has to say for these references.
wanted({_, State, Name}, References) ->
    [{"SCSCFName", Name} || lists:member(?NAME, References), Name /= ""] ++ [{"IMSUserState", integer_to_list(State)} || lists:member(?STATE, References)].

%% ---- what is told

tell_line({Public, State, Name} = Line) ->
    Asked = [{both, [?STATE]}, {box, [?NAME]}, {both, [?STATE, ?NAME]}, {box, [?NAME, ?STATE]}, {both, [?STATE, ?STATE]}, {box, [?NAME, ?STATE, ?NAME]}],
    [tells(Service, Line, References) || {Service, References} <- Asked],
    say("~ts: state ~b, ~ts: ~b documents", [Public, State, named(Name), length(Asked)]).

named("") -> "no name";
named(Name) -> Name.

tells(Service, {Public, _, _} = Line, References) ->
    Session = binary_to_list(iolist_to_binary(diameter:session_id("box.isle"))),
    {_, #{'Session-Id' := Session}} = Answer = asked(Service, ['UDR', {'Session-Id', Session}, identity(Public), {'Data-Reference', References}]),
    tells(Answer, wanted(Line, References)).

%% How many bytes the document has.
tells(Answer, Wanted) ->
    {b, 2001} = client:result(Answer),
    {Wanted, Wanted, Wanted} = {Wanted, tree(document(Answer)), events(document(Answer))},
    counted(documents),
    byte_size(document(Answer)).

%% The answer to a request, with the AVPs that such an answer has, and no others.
asked(Service, Request) ->
    {'UDA', Fields} = Answer = client:ask(Service, Request),
    #{'Vendor-Specific-Application-Id' := #{'Vendor-Id' := 10415, 'Auth-Application-Id' := [16777217]} = Application, 'Auth-Session-State' := 1,
      'Origin-Host' := "hss.isle", 'Origin-Realm' := "isle", 'Session-Id' := _} = Fields,
    2 = map_size(Application),
    Front = ['Session-Id', 'Vendor-Specific-Application-Id', 'Auth-Session-State', 'Origin-Host', 'Origin-Realm'],
    Own = own(client:result(Answer)),
    {Own, []} = {Own, maps:keys(maps:without(Front ++ Own ++ ['Proxy-Info', 'Route-Record'], Fields))},
    Answer.

own({b, 2001}) -> ['Result-Code', 'User-Data'];
own({b, _}) -> ['Result-Code', 'Failed-AVP'];
own({x, _}) -> ['Experimental-Result'].

document({_, #{'User-Data' := [Bytes]}}) -> iolist_to_binary(Bytes).

%% The elements in Sh-IMS-Data, and their text: by the parser that makes a tree.
tree(Bytes) ->
    {#xmlElement{name = 'Sh-Data', attributes = [], content = [Data]}, []} = xmerl_scan:string(binary_to_list(Bytes), [{quiet, true}]),
    #xmlElement{name = 'Sh-IMS-Data', attributes = [], content = Elements} = Data,
    [{atom_to_list(Name), lists:append([Value || #xmlText{value = Value} <- Texts])} || #xmlElement{name = Name, attributes = [], content = Texts} <- Elements].

%% The same by the parser that tells what it meets, of which nothing may be left over, and nothing else be met.
events(Bytes) ->
    {ok, Events, <<>>} = xmerl_sax_parser:stream(Bytes, [{event_fun, fun(Event, _, Met) -> [met(Event) | Met] end}, {event_state, []}]),
    [start, {open, "Sh-Data"}, {open, "Sh-IMS-Data"} | Rest] = lists:reverse(Events),
    elements(Rest).

met(startDocument) -> start;
met(endDocument) -> 'end';
met({startElement, [], Name, {[], Name}, []}) -> {open, Name};
met({endElement, [], Name, {[], Name}}) -> {close, Name};
met({characters, Text}) -> {text, Text};
met(Other) -> error({met, Other}).

elements([{close, "Sh-IMS-Data"}, {close, "Sh-Data"}, 'end']) -> [];
elements([{open, Name} | Rest]) ->
    {Texts, [{close, Name} | More]} = lists:splitwith(fun(Event) -> element(1, Event) == text end, Rest),
    [{Name, lists:append([Text || {text, Text} <- Texts])} | elements(More)].

%% ---- what is taken though it is no plain request: what it is, the request for state and name of desk's line, and what comes back besides

unusual(Edition) ->
    Asked = [identity("sip:desk@isle"), {'Data-Reference', [?STATE, ?NAME]}],
    Features = [{'Vendor-Id', 10415}, {'Feature-List-ID', 1}, {'Feature-List', 16#FFFFFFFF}],
    Proxies = [[{'Proxy-Host', "p1.isle"}, {'Proxy-State', "one"}], [{'Proxy-Host', "p2.isle"}, {'Proxy-State', "2"}]],
    [{"Supported-Features with M, for all there are, twice", ['UDR', {'Supported-Features', [Features, Features]} | Asked], []},
     {"User-Name, of somebody else", ['UDR', {'User-Name', ["nobody@isle"]} | Asked], []},
     {"Destination-Host", ['UDR', {'Destination-Host', ["hss.isle"]} | Asked], []},
     {"all that 001 has without M",
      ['UDR', {'DRMP', [0]}, {'Wildcarded-Public-Identity', ["sip:!.*!@isle"]}, {'Wildcarded-IMPU', ["sip:!.*!@isle"]}, {'Identity-Set', [0, 3]},
       {'Session-Priority', [0]}, {'Requested-Nodes', [1]}, {'Serving-Node-Indication', [0]}, {'Pre-paging-Supported', [1]},
       {'Local-Time-Zone-Indication', [1]}, {'UDR-Flags', [3]}, {'Call-Reference-Info', [[{'Call-Reference-Number', "1"}, {'AS-Number', "2"}]]},
       {'OC-Supported-Features', [[{'AVP', [#diameter_avp{code = 622, data = <<1:64>>}]}]]} | Asked], []},
     {"two Proxy-Infos, which come back, and a Route-Record",
      ['UDR', {'Proxy-Info', Proxies}, {'Route-Record', ["r.isle"]} | Asked], ["p1.isle", "p2.isle"]}] ++
    [{"two Vendor-Ids in 260, by RFC 3588", bare([vendor(), vendor()], [group(1), reference(?NAME), reference(?STATE)]), []} || Edition == 3588].

taken({What, Request, Proxies}, Line) ->
    {_, Fields} = Answer = asked(box, Request),
    {What, {b, 2001}} = {What, client:result(Answer)},
    tells(Answer, wanted(Line, [?STATE, ?NAME])),
    Proxies = [Host || #{'Proxy-Host' := Host} <- maps:get('Proxy-Info', Fields, [])],
    say("~s: a document", [What]).

%% ---- what is turned away: what it is, the request, the result, and the AVP in Failed-AVP

wrong(Edition) ->
    Desk = identity("sip:desk@isle"),
    State = {'Data-Reference', [?STATE]},
    [{"an unknown identity", ['UDR', identity("sip:nobody@isle"), State], {x, 5001}, []},
     {"an identity in another case", ['UDR', identity("sip:Desk@isle"), State], {x, 5001}, []},
     {"an empty identity", ['UDR', identity(""), State], {x, 5001}, []},
     {"an identity of 200 bytes", ['UDR', identity(lists:duplicate(200, $x)), State], {x, 5001}, []},
     {"another data reference behind one that is served", ['UDR', Desk, {'Data-Reference', [?STATE, 10]}], {x, 5100}, []},
     {"another one before it", ['UDR', Desk, {'Data-Reference', [13, ?NAME]}], {x, 5100}, []},
     {"an unknown identity and another data reference", ['UDR', identity("sip:nobody@isle"), {'Data-Reference', [10]}], {x, 5001}, []},
     {"an MSISDN", ['UDR', {'User-Identity', [{'MSISDN', [<<16#21, 16#43>>]}]}, State], {b, 5004}, [700]},
     {"an MSISDN beside the identity",
      ['UDR', {'User-Identity', [{'Public-Identity', ["sip:desk@isle"]}, {'MSISDN', [<<16#21, 16#43>>]}]}, State], {b, 5004}, [700]},
     {"nothing in 700", ['UDR', {'User-Identity', []}, State], {b, 5004}, [700]},
     {"Server-Name, with M", ['UDR', Desk, State, {'Server-Name', ["sip:as.isle"]}], {b, 5001}, [602]},
     {"Service-Indication, with M", ['UDR', Desk, State, {'Service-Indication', ["mail"]}], {b, 5001}, [704]},
     {"Requested-Domain, with M", ['UDR', Desk, State, {'Requested-Domain', [0]}], {b, 5001}, [706]},
     {"Current-Location, with M", ['UDR', Desk, State, {'Current-Location', [0]}], {b, 5001}, [707]},
     {"DSAI-Tag, with M", ['UDR', Desk, State, {'DSAI-Tag', ["tag"]}], {b, 5001}, [711]},
     {"260 of Cx", ['UDR', Desk, State, {'Vendor-Specific-Application-Id', [{'Vendor-Id', 10415}, {'Auth-Application-Id', [16777216]}]}], {b, 5004}, [260]},
     {"277 of 0", ['UDR', Desk, State, {'Auth-Session-State', 0}], {b, 5004}, [277]},
     {"no 700", bare([vendor()], [reference(?STATE)]), {b, 5005}, [700]},
     {"no 703", bare([vendor()], [group(1)]), {b, 5005}, [703]},
     {"two identities in 700", bare([vendor()], [group(2), reference(?STATE)]), {b, 5004}, [700]},
     {"two 700", bare([vendor()], [group(1), group(1), reference(?STATE)]), {b, 5009}, [700]},
     {"two User-Names", bare([vendor()], [group(1), reference(?STATE), avp(1, undefined, <<"a">>), avp(1, undefined, <<"a">>)]), {b, 5009}, [1]},
     {"an identity outside of 700, with M", bare([vendor()], [group(1), desk(), reference(?STATE)]), {b, 5001}, [601]},
     {"a 703 of 3 bytes", bare([vendor()], [group(1), avp(703, 10415, <<0, 0, ?STATE>>)]), {b, 5014}, [703]},
     {"data reference 256 + 11", bare([vendor()], [group(1), reference(256 + ?STATE)]), {x, 5100}, []}] ++
    [{"two Vendor-Ids in 260, by RFC 6733", bare([vendor(), vendor()], [group(1), reference(?STATE)]), {b, 5009}, [260]} || Edition == 6733].

identity(Public) -> {'User-Identity', [{'Public-Identity', [Public]}]}.

%% A request that no grammar allows, as AVPs: what 260 has before the application, and what comes behind those that every request has.
bare(Vendors, More) ->
    ['UDR', avp(263, undefined, iolist_to_binary(diameter:session_id("box.isle"))), avp(260, undefined, Vendors ++ [avp(258, undefined, <<16777217:32>>)]),
     avp(277, undefined, <<1:32>>), avp(264, undefined, <<"box.isle">>), avp(296, undefined, <<"isle">>), avp(283, undefined, <<"isle">>) | More].

%% A 700 with so many identities.
group(Count) -> avp(700, 10415, lists:duplicate(Count, desk())).

desk() -> avp(601, 10415, <<"sip:desk@isle">>).

reference(Number) -> avp(703, 10415, <<Number:32>>).

vendor() -> avp(266, undefined, <<10415:32>>).

avp(Code, Vendor, Data) -> #diameter_avp{code = Code, vendor_id = Vendor, is_mandatory = true, data = Data}.

turned_away({What, Request, Result, Failed}) ->
    Answer = asked(box, Request),
    Got = {client:result(Answer), failed(Answer)},
    {What, {Result, Failed}} = {What, Got},
    counted(others),
    say("~s: ~p", [What, Got]).

%% Every one that 001 has (6.3.4) but the two that are served.
other_references() ->
    Others = [0, 10] ++ lists:seq(13, 19) ++ lists:seq(21, 33),
    [{x, 5100} = client:result(asked(box, ['UDR', identity("sip:desk@isle"), {'Data-Reference', [Other]}])) || Other <- Others],
    [counted(others) || _ <- Others],
    say("each of the ~b other data references: {x,5100}", [length(Others)]).

failed({_, #{'Failed-AVP' := [#{'AVP' := Avps}]}}) -> [Code || #diameter_avp{code = Code} <- Avps];
failed({_, #{'Failed-AVP' := Other}}) -> Other;
failed(_) -> [].

%% A command that is not served: the answer has the E bit, and 260 and 277 with M, which the stack's answer-message has not.
unserved() ->
    Request = ['SNR', identity("sip:desk@isle"), {'Subs-Req-Type', 0}, {'Data-Reference', [?STATE]}],
    {error, _} = client:ask(box, Request),
    {'answer-message', #{'Result-Code' := 3001}} = client:ask(lenient, Request),
    counted(others),
    say("Subscribe-Notifications, B3001: dropped at the stack's defaults, and taken with strict_mbit off", []).

%% ---- a line that comes and goes, over the connection that carries both

life(Table) ->
    First = "sip:scscf1.isle:6060",
    Odd = "sip:a&b<c>\"d'e&amp;]]>.isle",
    Longest = lists:duplicate(96, $"),
    Steps =
        [{"never registered", none, 0, ""},
         {"challenged by MAR", mar(First), 3, First},
         {"registered by SAR of type 1", sar(1, First), 1, First},
         {"challenged for another server, whose name has markup characters", mar(Odd), 1, Odd},
         {"registered there", sar(1, Odd), 1, Odd},
         {"removed by SAR of type 5", sar(5, Odd), 0, ""},
         {"called while it is away, SAR of type 3, from a server with 96 quotes for a name", sar(3, Longest), 2, Longest},
         {"removed again", sar(5, Longest), 0, ""}],
    713 = lists:max([step(Table, Step) || Step <- Steps]), % the longest that there can be, by SH.md
    %% XML has no U+0001: SH.md says that a strict reader refuses the document.
    cx(sar(1, [1])),
    Answer = asked(both, ['UDR', identity("sip:gina@isle"), {'Data-Reference', [?NAME]}]),
    {b, 2001} = client:result(Answer),
    {'EXIT', {fatal, _}} = catch xmerl_scan:string(binary_to_list(document(Answer)), [{quiet, true}]),
    {fatal_error, _, _, _, _} = xmerl_sax_parser:stream(document(Answer), [{event_fun, fun(_, _, State) -> State end}]),
    counted(others),
    say("gina, under a name that XML does not allow: an answer, and a document that both parsers refuse", []),
    cx(sar(5, [1])).

step(Table, {What, Request, State, Name}) ->
    cx(Request),
    {_, State, Name} = Line = line_of("sip:gina@isle", Table),
    Size = tells(both, Line, [?STATE, ?NAME]),
    say("gina, ~s: state ~b, ~ts", [What, State, named(Name)]),
    Size.

cx(none) -> ok;
cx(Request) -> {b, 2001} = client:result(client:ask(both, Request)).

mar(Server) ->
    ['MAR', {'User-Name', "gina@isle"}, {'Public-Identity', "sip:gina@isle"}, {'SIP-Auth-Data-Item', [{'SIP-Authentication-Scheme', ["Digest-AKAv1-MD5"]}]},
     {'SIP-Number-Auth-Items', 1}, {'Server-Name', Server}].

sar(Type, Server) ->
    ['SAR', {'User-Name', ["gina@isle"]}, {'Public-Identity', ["sip:gina@isle"]}, {'Server-Name', Server}, {'Server-Assignment-Type', Type},
     {'User-Data-Already-Available', 0}].
