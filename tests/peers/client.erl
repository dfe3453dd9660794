%% What the clients on Erlang's diameter share: services, connections, requests with the AVPs that each has, and answers. An answer that is not as the
%% dictionary (cx.dia, sh.dia) has it is dropped by the stack (answer_errors is discard, its default), and so a failure of the client.
-module(client).
-export([run/2, service/4, connect/3, ask/2, result/1]).
-export([peer_up/3, peer_down/3, pick_peer/4, prepare_request/3, prepare_retransmit/3, handle_answer/4, handle_error/4, handle_request/3]).

-include_lib("diameter/include/diameter.hrl").

-define(CX, 16777216).
-define(SH, 16777217).

%% What a client tried, and the end: with status 1 at the first thing that goes wrong.
run(Name, Trials) ->
    try ok = diameter:start(), Trials() of
        Said ->
            io:format("~s: ~s~n", [Name, Said]),
            halt(0)
    catch
        error:Why:Where ->
            io:format("~s: ~0tp ~0tp~n", [Name, Why, Where]),
            halt(1)
    end.

%% A service that names its applications by `vendor`, in Vendor-Specific-Application-Id, or by `auth`, in Auth-Application-Id.
service(Name, Strict, By, Applications) ->
    diameter:start_service(Name,
        [{'Origin-Host', host(Name)}, {'Origin-Realm', "isle"}, {'Host-IP-Address', [{127, 0, 0, 1}]}, {'Vendor-Id', 10415}, {'Product-Name', "OTP"},
         {'Supported-Vendor-Id', [10415]}, {decode_format, map}, {strict_mbit, Strict}, named(By, [number(Of) || Of <- Applications])] ++
        [{application, [{alias, Of}, {dictionary, Of}, {module, client}]} || Of <- Applications]).

named(vendor, Numbers) -> {'Vendor-Specific-Application-Id', [[{'Vendor-Id', [10415]}, {'Auth-Application-Id', [Of]}] || Of <- Numbers]};
named(auth, Numbers) -> {'Auth-Application-Id', Numbers}.

host(Name) -> atom_to_list(Name) ++ ".isle".

connect(Name, Address, Port) ->
    {ok, Ip} = inet:parse_address(Address),
    true = diameter:subscribe(Name),
    Transport = [{raddr, Ip}, {rport, Port}, {reuseaddr, true}],
    {ok, _} = diameter:add_transport(Name, {connect, [{watchdog_timer, 6000}, {transport_module, diameter_tcp}, {transport_config, Transport}]}),
    await(Name).

await(Name) ->
    receive
        #diameter_event{service = Name, info = Info} when element(1, Info) == up -> ok;
        #diameter_event{} -> await(Name)
    after 10000 -> error({no_connection, Name})
    end.

%% The answer's name and its AVPs, or an error. A request is its name and fields, of which those that every request has are put in unless they are given; or
%% its name and AVPs, which go out as they are, whatever the dictionary says.
ask(Name, Request) -> plain(diameter:call(Name, interface(hd(Request)), Request, [{timeout, 5000}])).

plain({ok, [Name | Fields]}) -> {Name, Fields};
plain(Other) -> Other.

interface(Name) when Name == 'UDR'; Name == 'SNR' -> sh;
interface(_) -> cx.

number(cx) -> ?CX;
number(sh) -> ?SH.

%% By RFC 3588, which cx.dia inherits, there may be several Vendor-Ids; by RFC 6733, which sh.dia does, there is one.
application(cx) -> [{'Vendor-Id', [10415]}, {'Auth-Application-Id', [?CX]}];
application(sh) -> [{'Vendor-Id', 10415}, {'Auth-Application-Id', [?SH]}].

result({_, #{'Result-Code' := [Code]}}) -> {b, Code};
result({_, #{'Result-Code' := Code}}) when is_integer(Code) -> {b, Code};
result({_, #{'Experimental-Result' := [#{'Experimental-Result-Code' := Code, 'Vendor-Id' := 10415}]}}) -> {x, Code};
result(Other) -> Other.

%% ---- what the stack calls

peer_up(_, _, State) -> State.
peer_down(_, _, State) -> State.
pick_peer([Peer | _], _, _, _) -> {ok, Peer};
pick_peer([], _, _, _) -> false.

prepare_request(#diameter_packet{msg = [_, #diameter_avp{} | _]} = Packet, _, _) -> {send, Packet};
prepare_request(#diameter_packet{msg = [Name | Fields]}, _, {_, Capabilities}) ->
    #diameter_caps{origin_host = {Host, _}, origin_realm = {Realm, _}} = Capabilities,
    Common = [{'Session-Id', diameter:session_id(Host)}, {'Origin-Host', Host}, {'Origin-Realm', Realm}, {'Destination-Realm', "isle"},
              {'Vendor-Specific-Application-Id', application(interface(Name))}, {'Auth-Session-State', 1}],
    {send, [Name | [Field || {Key, _} = Field <- Common, not lists:keymember(Key, 1, Fields)] ++ Fields]}.

prepare_retransmit(Packet, _, Peer) -> prepare_request(Packet, none, Peer).

handle_answer(#diameter_packet{msg = Message, errors = []}, _, _, _) -> {ok, Message};
handle_answer(#diameter_packet{errors = Errors}, _, _, _) -> {error, Errors}.

handle_error(Why, _, _, _) -> {error, Why}.

handle_request(_, _, _) -> discard.
