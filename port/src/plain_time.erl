%% @doc Time is virtual: it passes only where nobody else can go. The ticker of a run, by which the clock goes on, is
%% chosen last by each seed; a schedule may choose it earlier.
-module(plain_time).
-export([last/1, early/1, tickers/1, passes/2]).

%% @doc The words by which a seed chooses the ticker last, where a module has one: it is the first process of each run.
-spec last(boolean()) -> [string()].
last(true) -> ["--last", "1"];
last(false) -> [].

%% @doc Whether a time passes while somebody else may go.
-spec early([plain_report:event()]) -> boolean().
early(Events) ->
    Tickers = tickers(Events),
    lists:any(fun(#{among := Among} = Event) -> Among > 1 andalso passes(Event, Tickers) end, Events).

%% @doc The ticker of a run, if it has one.
-spec tickers([plain_report:event()]) -> [non_neg_integer()].
tickers(Events) ->
    [element(1, string:to_integer(P)) || #{subject := {turn, _}, label := <<"register port@ticker <", P/binary>>} <- Events].

%% @doc Whether a time passes at an event: the ticker answers the clock.
-spec passes(plain_report:event(), [non_neg_integer()]) -> boolean().
passes(#{subject := {turn, P}, label := <<"send ", _/binary>>}, Tickers) -> lists:member(P, Tickers);
passes(_, _) -> false.
