% pairs: lists of pairs Key-Value.

:- module(pairs).
:- export([
    pairs_keys_values/3, pairs_keys/2, pairs_values/2, transpose_pairs/2, map_list_to_pairs/3, group_pairs_by_key/2
]).
:- reexport(lists, [keysort/2]).
:- metapredicate(map_list_to_pairs(:, *, *)).
:- end_module(pairs).

:- body(pairs).
:- import(lists, [keysort/2]).

% pairs_keys_values(?Pairs, ?Keys, ?Values): Pairs has Key-Value for the items of Keys and Values that stand at the same place.
pairs_keys_values(Pairs, Keys, Values) :- nonvar(Pairs), !, of_pairs(Pairs, Keys, Values).
pairs_keys_values(Pairs, Keys, Values) :- nonvar(Keys), !, of_keys(Keys, Values, Pairs).
pairs_keys_values(Pairs, Keys, Values) :- of_values(Values, Keys, Pairs).

of_pairs([], [], []).
of_pairs([Key-Value|Pairs], [Key|Keys], [Value|Values]) :- of_pairs(Pairs, Keys, Values).

of_keys([], [], []).
of_keys([Key|Keys], [Value|Values], [Key-Value|Pairs]) :- of_keys(Keys, Values, Pairs).

of_values([], [], []).
of_values([Value|Values], [Key|Keys], [Key-Value|Pairs]) :- of_values(Values, Keys, Pairs).

% pairs_keys(?Pairs, ?Keys): Keys has the keys of Pairs.
pairs_keys(Pairs, Keys) :- nonvar(Pairs), !, keys_of(Pairs, Keys).
pairs_keys(Pairs, Keys) :- with_keys(Keys, Pairs).

keys_of([], []).
keys_of([Key-_|Pairs], [Key|Keys]) :- keys_of(Pairs, Keys).

with_keys([], []).
with_keys([Key|Keys], [Key-_|Pairs]) :- with_keys(Keys, Pairs).

% pairs_values(?Pairs, ?Values): Values has the values of Pairs.
pairs_values(Pairs, Values) :- nonvar(Pairs), !, values_of(Pairs, Values).
pairs_values(Pairs, Values) :- with_values(Values, Pairs).

values_of([], []).
values_of([_-Value|Pairs], [Value|Values]) :- values_of(Pairs, Values).

with_values([], []).
with_values([Value|Values], [_-Value|Pairs]) :- with_values(Values, Pairs).

% transpose_pairs(+Pairs, ?Transposed): Transposed has Value-Key for each Key-Value of Pairs, by the order of the values.
transpose_pairs(Pairs, Transposed) :-
    turned(Pairs, Turned),
    keysort(Turned, Transposed).

turned([], []).
turned([Key-Value|Pairs], [Value-Key|Turned]) :- turned(Pairs, Turned).

% map_list_to_pairs(+Goal, ?List, ?Pairs): Pairs has Key-Item for each Item of List, where call(Goal, Item, Key) holds.
map_list_to_pairs(Goal, List, Pairs) :- nonvar(List), !, keyed(List, Goal, Pairs).
map_list_to_pairs(Goal, List, Pairs) :- items(Pairs, Goal, List).

keyed([], _, []).
keyed([Item|List], Goal, [Key-Item|Pairs]) :-
    call(Goal, Item, Key),
    keyed(List, Goal, Pairs).

items([], _, []).
items([Key-Item|Pairs], Goal, [Item|List]) :-
    call(Goal, Item, Key),
    items(Pairs, Goal, List).

% group_pairs_by_key(+Pairs, ?Groups): Groups has Key-Values for each run of pairs of Pairs with equal (==) keys.
group_pairs_by_key([], []).
group_pairs_by_key([Key-Value|Pairs], [Key-[Value|Values]|Groups]) :- grouped(Pairs, Key, Values, Groups).

grouped([], _, [], []).
grouped([Next-Value|Pairs], Key, Values, Groups) :-
    Next == Key, !,
    Values = [Value|Others],
    grouped(Pairs, Key, Others, Groups).
grouped([Next-Value|Pairs], _, [], [Next-[Value|Values]|Groups]) :- grouped(Pairs, Next, Values, Groups).

:- end_body(pairs).
