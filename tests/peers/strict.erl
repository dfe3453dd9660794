%% Erlang's diameter as a strict client of Cx: every answer is decoded against cx.dia. The daemon supports bits 0 and 1 of list 1, and tells whoever asks, and
%% nobody else.
%% erl -noshell -s strict run ADDRESS PORT
-module(strict).
-export([run/1]).

run([Address, Port]) -> client:run("strict.erl", fun() -> trials(atom_to_list(Address), list_to_integer(atom_to_list(Port))) end).

trials(Address, Port) ->
    ok = client:service(strict, true, vendor, [cx]),
    ok = client:service(lenient, false, vendor, [cx]),
    client:connect(strict, Address, Port),
    Alice = "sip:alice@isle",
    Server = {'Server-Name', "sip:scscf1.isle:6060"},
    User = [{'User-Name', "alice@isle"}, {'Public-Identity', Alice}],
    Scheme = {'SIP-Auth-Data-Item', [{'SIP-Authentication-Scheme', ["Digest-AKAv1-MD5"]}]},
    Asking = fun(Bits) -> {'Supported-Features', [[{'Vendor-Id', 10415}, {'Feature-List-ID', 1}, {'Feature-List', Bits}]]} end,
    Told = [{10415, 1, 3}],
    Steps =
        [{"UAR of alice, never registered", ['UAR' | User ++ [{'Visited-Network-Identifier', "isle"}]], {x, 2001}},
         {"LIR of alice, never registered", ['LIR', {'Public-Identity', Alice}], {x, 5003}},
         {"LIR that asks for what is supported", ['LIR', {'Public-Identity', Alice}, Asking(3)], {x, 5003}, Told},
         {"LIR that asks for more", ['LIR', {'Public-Identity', Alice}, Asking(4)], {x, 5011}, Told},
         {"UAR that asks for more", ['UAR' | User ++ [{'Visited-Network-Identifier', "isle"}, Asking(7)]], {x, 5011}, Told},
         {"MAR that asks for more", ['MAR' | User ++ [Scheme, {'SIP-Number-Auth-Items', 1}, Server, Asking(16#80000000)]], {x, 5011}, Told},
         {"MAR that asks for what is supported", ['MAR' | User ++ [Scheme, {'SIP-Number-Auth-Items', 1}, Server, Asking(1)]], {b, 2001}, Told},
         {"MAR for three vectors", ['MAR' | User ++ [Scheme, {'SIP-Number-Auth-Items', 3}, Server]], {b, 2001}},
         {"SAR of type 1", ['SAR', {'User-Name', ["alice@isle"]}, {'Public-Identity', [Alice]}, Server, {'Server-Assignment-Type', 1},
                            {'User-Data-Already-Available', 0}], {b, 2001}},
         {"LIR of alice, registered", ['LIR', {'Public-Identity', Alice}], {b, 2001}},
         {"UAR of alice, registered", ['UAR' | User ++ [{'Visited-Network-Identifier', "isle"}]], {x, 2002}},
         {"UAR from another network", ['UAR' | User ++ [{'Visited-Network-Identifier', "elsewhere"}]], {x, 5004}},
         {"LIR of nobody", ['LIR', {'Public-Identity', "sip:nobody@isle"}], {x, 5001}},
         {"MAR with another scheme", ['MAR' | User ++ [{'SIP-Auth-Data-Item', [{'SIP-Authentication-Scheme', ["unknown"]}]},
                                                      {'SIP-Number-Auth-Items', 1}, Server]], {x, 5006}},
         {"MAR of a second member in 612", ['MAR' | User ++ [{'SIP-Auth-Data-Item', [{'SIP-Authentication-Scheme', ["Digest-AKAv1-MD5"]},
                                                             {'SIP-Authorization', ["auts"]}]}, {'SIP-Number-Auth-Items', 1}, Server]], {b, 5004}},
         {"SAR of type 5", ['SAR', {'User-Name', ["alice@isle"]}, {'Public-Identity', [Alice]}, Server, {'Server-Assignment-Type', 5},
                            {'User-Data-Already-Available', 0}], {b, 2001}},
         {"SAR of type 5 once more, as another request", ['SAR', {'User-Name', ["alice@isle"]}, {'Public-Identity', [Alice]}, Server,
                            {'Server-Assignment-Type', 5}, {'User-Data-Already-Available', 0}], {x, 5007}}],
    lists:foreach(fun step/1, Steps),
    %% An answer with the E bit has 260 and 277 with M, which the stack's answer-message has not: dropped unless strict_mbit is off.
    {error, _} = client:ask(strict, ['PPR']),
    io:format("strict.erl: a command that is unknown, B3001: dropped at the stack's defaults~n"),
    client:connect(lenient, Address, Port),
    {'answer-message', #{'Result-Code' := 3001}} = client:ask(lenient, ['PPR']),
    io:format("strict.erl: the same with strict_mbit off: B3001~n"),
    %% The stack's own DWRs, after 6 seconds of silence, and then the end by DPR.
    timer:sleep(8000),
    step({"LIR of alice, after some DWRs", ['LIR', {'Public-Identity', Alice}], {x, 5003}}),
    ok = diameter:stop_service(strict),
    ok = diameter:stop_service(lenient),
    io_lib:format("~b answers, each decoded without an error", [length(Steps) + 2]).

step({What, Request, Wanted}) -> step({What, Request, Wanted, []});
step({What, Request, Wanted, Told}) ->
    Answer = client:ask(strict, Request),
    Got = {client:result(Answer), told(Answer)},
    io:format("strict.erl: ~s: ~p~n", [What, Got]),
    {Wanted, Told} = Got.

told({_, #{'Supported-Features' := Lists}}) ->
    [{Vendor, List, Bits} || #{'Vendor-Id' := Vendor, 'Feature-List-ID' := List, 'Feature-List' := Bits} <- Lists];
told(_) -> [].
