% assoc: tables from keys to values as balanced trees (AVL trees), over the standard order of keys.
%
% A tree is t, or t(Key, Value, Balance, Left, Right), where Balance tells which side is deeper: '<' the left one, '>' the
% right one, '-' none of them. The depths of two sides differ by one at most.
% Keys are compared and not unified; a key that is bound further after it was put may not be found again.

:- module(assoc).
:- export([empty_assoc/1, is_assoc/1, get_assoc/3, get_assoc/5, gen_assoc/3, put_assoc/4]).
:- export([list_to_assoc/2, ord_list_to_assoc/2, assoc_to_list/2, assoc_to_keys/2, assoc_to_values/2]).
:- export([map_assoc/2, map_assoc/3, max_assoc/3, min_assoc/3, del_assoc/4, del_min_assoc/4, del_max_assoc/4]).
:- metapredicate([map_assoc(:, *), map_assoc(:, *, *)]).
:- end_module(assoc).

:- body(assoc).
:- import(lists, [length/2]).
:- import(pairs, [keysort/2]).

% empty_assoc(?Assoc): the table without keys.
empty_assoc(t).

% is_assoc(@Term): Term is a table: keys in ascending order, each balance as the depths are. Nothing is bound.
is_assoc(Term) :- nonvar(Term), checked(Term, none, none, _).

% checked(Tree, Below, Above, Depth): keys of Tree stand between Below and Above, which are none or key(Key).
checked(Tree, _, _, _) :- var(Tree), !, fail.
checked(t, _, _, 0).
checked(t(Key, _, Balance, Left, Right), Below, Above, Depth) :-
    is_above(Below, Key),
    is_below(Above, Key),
    checked(Left, Below, key(Key), LeftDepth),
    checked(Right, key(Key), Above, RightDepth),
    Difference is RightDepth - LeftDepth,
    balance_of(Difference, Expected),
    Balance == Expected,
    depth_above(Expected, LeftDepth, RightDepth, Depth).

is_above(none, _).
is_above(key(Low), Key) :- Low @< Key.

is_below(none, _).
is_below(key(High), Key) :- Key @< High.

balance_of(-1, <).
balance_of(0, -).
balance_of(1, >).

depth_above(<, LeftDepth, _, Depth) :- Depth is LeftDepth + 1.
depth_above(-, LeftDepth, _, Depth) :- Depth is LeftDepth + 1.
depth_above(>, _, RightDepth, Depth) :- Depth is RightDepth + 1.

% get_assoc(+Key, +Assoc, ?Value): the value of a key; fails where the key isn't there.
get_assoc(Key, Assoc, Value) :- must_be_table(Assoc, get_assoc/3), value_at(Assoc, Key, Value).

value_at(t(Here, Found, _, Left, Right), Key, Value) :-
    (   Key @< Here
    ->  value_at(Left, Key, Value)
    ;   Key @> Here
    ->  value_at(Right, Key, Value)
    ;   Value = Found
    ).

% get_assoc(+Key, +Assoc0, ?Value0, ?Assoc, ?Value): Key has Value0 in Assoc0, and Value in Assoc, which is the same elsewhere.
get_assoc(Key, Assoc0, Value0, Assoc, Value) :-
    must_be_table(Assoc0, get_assoc/5),
    exchanged(Assoc0, Key, Value0, Assoc, Value).

exchanged(t(Here, Found, Balance, Left, Right), Key, Value0, Assoc, Value) :-
    (   Key @< Here
    ->  Assoc = t(Here, Found, Balance, NewLeft, Right),
        exchanged(Left, Key, Value0, NewLeft, Value)
    ;   Key @> Here
    ->  Assoc = t(Here, Found, Balance, Left, NewRight),
        exchanged(Right, Key, Value0, NewRight, Value)
    ;   Value0 = Found,
        Assoc = t(Here, Value, Balance, Left, Right)
    ).

% gen_assoc(?Key, +Assoc, ?Value): each key with its value, in ascending order; a ground key is looked up.
gen_assoc(Key, Assoc, Value) :-
    must_be_table(Assoc, gen_assoc/3),
    (   ground(Key)
    ->  value_at(Assoc, Key, Value)
    ;   one_of(Assoc, Key, Value)
    ).

one_of(t(Here, Found, _, Left, Right), Key, Value) :- one_of(Left, Here, Found, Right, Key, Value).

one_of(Left, _, _, _, Key, Value) :- one_of(Left, Key, Value).
one_of(_, Key, Value, _, Key, Value).
one_of(_, _, _, Right, Key, Value) :- one_of(Right, Key, Value).

% put_assoc(+Key, +Assoc0, +Value, -Assoc): Assoc is Assoc0 with Value for Key, whether Key was there or not.
put_assoc(Key, Assoc0, Value, Assoc) :- must_be_table(Assoc0, put_assoc/4), put(Assoc0, Key, Value, Assoc, _).

% put(Tree0, Key, Value, Tree, Change): Change tells whether Tree is deeper than Tree0: grown or same.
put(t, Key, Value, t(Key, Value, -, t, t), grown).
put(t(Here, Found, Balance, Left, Right), Key, Value, Tree, Change) :-
    (   Key @< Here
    ->  put(Left, Key, Value, NewLeft, LeftChange),
        left_put(LeftChange, Balance, Here, Found, NewLeft, Right, Tree, Change)
    ;   Key @> Here
    ->  put(Right, Key, Value, NewRight, RightChange),
        right_put(RightChange, Balance, Here, Found, Left, NewRight, Tree, Change)
    ;   Tree = t(Here, Value, Balance, Left, Right),
        Change = same
    ).

left_put(same, Balance, Key, Value, Left, Right, t(Key, Value, Balance, Left, Right), same).
left_put(grown, Balance, Key, Value, Left, Right, Tree, Change) :- left_grew(Balance, Key, Value, Left, Right, Tree, Change).

left_grew(-, Key, Value, Left, Right, t(Key, Value, <, Left, Right), grown).
left_grew(>, Key, Value, Left, Right, t(Key, Value, -, Left, Right), same).
left_grew(<, Key, Value, Left, Right, Tree, same) :- lean_right(Left, Key, Value, Right, Tree, _).

right_put(same, Balance, Key, Value, Left, Right, t(Key, Value, Balance, Left, Right), same).
right_put(grown, Balance, Key, Value, Left, Right, Tree, Change) :- right_grew(Balance, Key, Value, Left, Right, Tree, Change).

right_grew(-, Key, Value, Left, Right, t(Key, Value, >, Left, Right), grown).
right_grew(<, Key, Value, Left, Right, t(Key, Value, -, Left, Right), same).
right_grew(>, Key, Value, Left, Right, Tree, same) :- lean_left(Right, Key, Value, Left, Tree, _).

% lean_right(Left, Key, Value, Right, Tree, Change): Left is deeper than Right by two; Change tells whether Tree is as deep as
% that (same) or less (shorter).
lean_right(t(LeftKey, LeftValue, Balance, Outer, Inner), Key, Value, Right, Tree, Change) :-
    lean_right(Balance, LeftKey, LeftValue, Outer, Inner, Key, Value, Right, Tree, Change).

lean_right(<, LeftKey, LeftValue, Outer, Inner, Key, Value, Right,
           t(LeftKey, LeftValue, -, Outer, t(Key, Value, -, Inner, Right)), shorter).
lean_right(-, LeftKey, LeftValue, Outer, Inner, Key, Value, Right,
           t(LeftKey, LeftValue, >, Outer, t(Key, Value, <, Inner, Right)), same).
lean_right(>, LeftKey, LeftValue, Outer, t(TopKey, TopValue, Balance, Low, High), Key, Value, Right,
           t(TopKey, TopValue, -, t(LeftKey, LeftValue, LowBalance, Outer, Low), t(Key, Value, HighBalance, High, Right)),
           shorter) :-
    split_balance(Balance, LowBalance, HighBalance).

% lean_left(Right, Key, Value, Left, Tree, Change): the same where Right is deeper than Left by two.
lean_left(t(RightKey, RightValue, Balance, Inner, Outer), Key, Value, Left, Tree, Change) :-
    lean_left(Balance, RightKey, RightValue, Inner, Outer, Key, Value, Left, Tree, Change).

lean_left(>, RightKey, RightValue, Inner, Outer, Key, Value, Left,
          t(RightKey, RightValue, -, t(Key, Value, -, Left, Inner), Outer), shorter).
lean_left(-, RightKey, RightValue, Inner, Outer, Key, Value, Left,
          t(RightKey, RightValue, <, t(Key, Value, >, Left, Inner), Outer), same).
lean_left(<, RightKey, RightValue, t(TopKey, TopValue, Balance, Low, High), Outer, Key, Value, Left,
          t(TopKey, TopValue, -, t(Key, Value, LowBalance, Left, Low), t(RightKey, RightValue, HighBalance, High, Outer)),
          shorter) :-
    split_balance(Balance, LowBalance, HighBalance).

% split_balance(Balance, Low, High): a tree of this balance goes to the top; Low and High are the balances of what is below it.
split_balance(<, -, >).
split_balance(-, -, -).
split_balance(>, <, -).

% list_to_assoc(+Pairs, -Assoc): the table of a list of pairs Key-Value without equal keys.
list_to_assoc(Pairs, Assoc) :-
    keysort(Pairs, Sorted),
    (   ascending_pairs(Sorted)
    ->  table_of(Sorted, Assoc)
    ;   throw(error(domain_error(unique_key_pairs, Pairs), list_to_assoc/2))
    ).

% ord_list_to_assoc(+Pairs, -Assoc): the same of pairs that are in ascending order already.
ord_list_to_assoc(Pairs, Assoc) :-
    (   ascending_pairs(Pairs)
    ->  table_of(Pairs, Assoc)
    ;   is_open(Pairs)
    ->  throw(error(instantiation_error, ord_list_to_assoc/2))
    ;   throw(error(domain_error(key_ordered_pairs, Pairs), ord_list_to_assoc/2))
    ).

% ascending_pairs(Pairs): a proper list of pairs with keys in strictly ascending order.
ascending_pairs(Pairs) :- nonvar(Pairs), ascending_first(Pairs).

ascending_first([]).
ascending_first([Pair|Pairs]) :- nonvar(Pair), Pair = Key-_, ascending_after(Pairs, Key).

ascending_after(Pairs, _) :- var(Pairs), !, fail.
ascending_after([], _).
ascending_after([Pair|Pairs], Last) :- nonvar(Pair), Pair = Key-_, Last @< Key, ascending_after(Pairs, Key).

% is_open(Pairs): a list that ends in a variable, or has one for an element.
is_open(Pairs) :- var(Pairs), !.
is_open([Pair|Pairs]) :- ( var(Pair) -> true ; is_open(Pairs) ).

table_of(Pairs, Assoc) :- length(Pairs, Count), built(Count, Pairs, [], Assoc, _).

% built(Count, Pairs, Rest, Tree, Depth): the tree of the first Count pairs, and those that remain.
built(0, Pairs, Pairs, t, 0) :- !.
built(1, [Key-Value|Pairs], Pairs, t(Key, Value, -, t, t), 1) :- !.
built(Count, Pairs, Rest, t(Key, Value, Balance, Left, Right), Depth) :-
    LeftCount is Count // 2,
    RightCount is Count - 1 - LeftCount,
    built(LeftCount, Pairs, [Key-Value|Upper], Left, LeftDepth),
    built(RightCount, Upper, Rest, Right, RightDepth),
    Depth is LeftDepth + 1,
    Difference is RightDepth - LeftDepth,
    balance_of(Difference, Balance).

% assoc_to_list(+Assoc, -Pairs): the pairs Key-Value in ascending order of keys.
assoc_to_list(Assoc, Pairs) :- must_be_bound(Assoc, assoc_to_list/2), pairs_before(Assoc, Pairs, []).

pairs_before(t, Pairs, Pairs).
pairs_before(t(Key, Value, _, Left, Right), Pairs, Rest) :-
    pairs_before(Left, Pairs, [Key-Value|More]),
    pairs_before(Right, More, Rest).

% assoc_to_keys(+Assoc, -Keys): the keys in ascending order.
assoc_to_keys(Assoc, Keys) :- must_be_bound(Assoc, assoc_to_keys/2), keys_before(Assoc, Keys, []).

keys_before(t, Keys, Keys).
keys_before(t(Key, _, _, Left, Right), Keys, Rest) :-
    keys_before(Left, Keys, [Key|More]),
    keys_before(Right, More, Rest).

% assoc_to_values(+Assoc, -Values): the values in ascending order of their keys.
assoc_to_values(Assoc, Values) :- must_be_bound(Assoc, assoc_to_values/2), values_before(Assoc, Values, []).

values_before(t, Values, Values).
values_before(t(_, Value, _, Left, Right), Values, Rest) :-
    values_before(Left, Values, [Value|More]),
    values_before(Right, More, Rest).

% map_assoc(+Goal, +Assoc): call(Goal, Value) is true for each value, in ascending order of keys.
map_assoc(Goal, Assoc) :- must_be_table(Assoc, map_assoc/2), each_value(Assoc, Goal).

each_value(t, _).
each_value(t(_, Value, _, Left, Right), Goal) :-
    each_value(Left, Goal),
    call(Goal, Value),
    each_value(Right, Goal).

% map_assoc(+Goal, +Assoc0, ?Assoc): the keys of both are the same, and call(Goal, Value0, Value) is true for their values.
map_assoc(Goal, Assoc0, Assoc) :- must_be_table(Assoc0, map_assoc/3), each_pair(Assoc0, Goal, Assoc).

each_pair(t, _, t).
each_pair(t(Key, Value0, Balance, Left0, Right0), Goal, t(Key, Value, Balance, Left, Right)) :-
    each_pair(Left0, Goal, Left),
    call(Goal, Value0, Value),
    each_pair(Right0, Goal, Right).

% max_assoc(+Assoc, ?Key, ?Value): the greatest key and its value; fails where there is none.
max_assoc(Assoc, Key, Value) :- must_be_table(Assoc, max_assoc/3), greatest(Assoc, Key, Value).

greatest(t(Here, Found, _, _, Right), Key, Value) :- greatest(Right, Here, Found, Key, Value).

greatest(t, Key, Value, Key, Value).
greatest(t(Here, Found, _, _, Right), _, _, Key, Value) :- greatest(Right, Here, Found, Key, Value).

% min_assoc(+Assoc, ?Key, ?Value): the least key and its value; fails where there is none.
min_assoc(Assoc, Key, Value) :- must_be_table(Assoc, min_assoc/3), least(Assoc, Key, Value).

least(t(Here, Found, _, Left, _), Key, Value) :- least(Left, Here, Found, Key, Value).

least(t, Key, Value, Key, Value).
least(t(Here, Found, _, Left, _), _, _, Key, Value) :- least(Left, Here, Found, Key, Value).

% del_assoc(+Key, +Assoc0, ?Value, -Assoc): Assoc is Assoc0 without Key, which had Value; fails where Key isn't there.
del_assoc(Key, Assoc0, Value, Assoc) :- must_be_table(Assoc0, del_assoc/4), removed(Assoc0, Key, Value, Assoc, _).

% removed(Tree0, Key, Value, Tree, Change): Change tells whether Tree is less deep than Tree0: shorter or same.
removed(t(Here, Found, Balance, Left, Right), Key, Value, Tree, Change) :-
    (   Key @< Here
    ->  removed(Left, Key, Value, NewLeft, LeftChange),
        left_removed(LeftChange, Balance, Here, Found, NewLeft, Right, Tree, Change)
    ;   Key @> Here
    ->  removed(Right, Key, Value, NewRight, RightChange),
        right_removed(RightChange, Balance, Here, Found, Left, NewRight, Tree, Change)
    ;   Value = Found,
        joined(Left, Right, Balance, Tree, Change)
    ).

% joined(Left, Right, Balance, Tree, Change): the two sides of a node of this balance without the node.
joined(t, Right, _, Right, shorter).
joined(t(Key, Value, LeftBalance, Low, High), Right, Balance, Tree, Change) :-
    joined_left(Right, t(Key, Value, LeftBalance, Low, High), Balance, Tree, Change).

joined_left(t, Left, _, Left, shorter).
joined_left(t(Key, Value, RightBalance, Low, High), Left, Balance, Tree, Change) :-
    joined_by(Balance, Left, t(Key, Value, RightBalance, Low, High), Tree, Change).

joined_by(>, Left, Right, Tree, Change) :-
    least_removed(Right, Key, Value, NewRight, RightChange),
    right_removed(RightChange, >, Key, Value, Left, NewRight, Tree, Change).
joined_by(-, Left, Right, Tree, Change) :- joined_by_left(-, Left, Right, Tree, Change).
joined_by(<, Left, Right, Tree, Change) :- joined_by_left(<, Left, Right, Tree, Change).

joined_by_left(Balance, Left, Right, Tree, Change) :-
    greatest_removed(Left, Key, Value, NewLeft, LeftChange),
    left_removed(LeftChange, Balance, Key, Value, NewLeft, Right, Tree, Change).

left_removed(same, Balance, Key, Value, Left, Right, t(Key, Value, Balance, Left, Right), same).
left_removed(shorter, Balance, Key, Value, Left, Right, Tree, Change) :-
    left_shrank(Balance, Key, Value, Left, Right, Tree, Change).

left_shrank(-, Key, Value, Left, Right, t(Key, Value, >, Left, Right), same).
left_shrank(<, Key, Value, Left, Right, t(Key, Value, -, Left, Right), shorter).
left_shrank(>, Key, Value, Left, Right, Tree, Change) :- lean_left(Right, Key, Value, Left, Tree, Change).

right_removed(same, Balance, Key, Value, Left, Right, t(Key, Value, Balance, Left, Right), same).
right_removed(shorter, Balance, Key, Value, Left, Right, Tree, Change) :-
    right_shrank(Balance, Key, Value, Left, Right, Tree, Change).

right_shrank(-, Key, Value, Left, Right, t(Key, Value, <, Left, Right), same).
right_shrank(>, Key, Value, Left, Right, t(Key, Value, -, Left, Right), shorter).
right_shrank(<, Key, Value, Left, Right, Tree, Change) :- lean_right(Left, Key, Value, Right, Tree, Change).

% del_min_assoc(+Assoc0, ?Key, ?Value, -Assoc): Assoc is Assoc0 without its least key, Key, which had Value.
del_min_assoc(Assoc0, Key, Value, Assoc) :- least_removed(Assoc0, Key, Value, Assoc, _).

least_removed(t(Here, Found, Balance, Left, Right), Key, Value, Tree, Change) :-
    (   Left = t
    ->  Key = Here,
        Value = Found,
        Tree = Right,
        Change = shorter
    ;   least_removed(Left, Key, Value, NewLeft, LeftChange),
        left_removed(LeftChange, Balance, Here, Found, NewLeft, Right, Tree, Change)
    ).

% del_max_assoc(+Assoc0, ?Key, ?Value, -Assoc): the same of the greatest key.
del_max_assoc(Assoc0, Key, Value, Assoc) :- greatest_removed(Assoc0, Key, Value, Assoc, _).

greatest_removed(t(Here, Found, Balance, Left, Right), Key, Value, Tree, Change) :-
    (   Right = t
    ->  Key = Here,
        Value = Found,
        Tree = Left,
        Change = shorter
    ;   greatest_removed(Right, Key, Value, NewRight, RightChange),
        right_removed(RightChange, Balance, Here, Found, Left, NewRight, Tree, Change)
    ).

must_be_bound(Term, Caller) :- ( var(Term) -> throw(error(instantiation_error, Caller)) ; true ).

must_be_table(Term, Caller) :-
    (   var(Term)
    ->  throw(error(instantiation_error, Caller))
    ;   is_node(Term)
    ->  true
    ;   throw(error(type_error(assoc, Term), Caller))
    ).

is_node(t).
is_node(t(_, _, _, _, _)).
:- end_body(assoc).
