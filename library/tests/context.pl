% a module that calls each metapredicate of lists, apply and pairs with predicates of its own, which are visible neither in user nor in
% the library
:- module(context_probe).
:- export([
    probe_predsort/2, probe_max_member/2, probe_min_member/2,
    probe_maplist/1, probe_maplist/2, probe_maplist/3, probe_maplist/4, probe_maplist/5, probe_maplist/6,
    probe_include/2, probe_exclude/2, probe_partition/3, probe_partition/4, probe_convlist/2,
    probe_foldl/2, probe_foldl/3, probe_foldl/4, probe_foldl/5,
    probe_scanl/2, probe_scanl/3, probe_scanl/4, probe_scanl/5,
    probe_forall/1, probe_ignore/1, probe_aggregate_all/2, probe_aggregate_all/1,
    probe_map_list_to_pairs/2, probe_named/2
]).
:- end_module(context_probe).

:- body(context_probe).
:- import(lists).
:- import(apply).
:- import(pairs).

own_order(Sign, X, Y) :- compare(Sign, Y, X).
own_first(X, Y) :- X @>= Y.
own(1).
own(2).
own(X, Y) :- own(X), Y is X + 10.
own(X, Y, Z) :- own(X), Z is X + Y.
own(X, Y, Z, U) :- own(X), U is X + Y + Z.
own(X, Y, Z, U, V) :- own(X), V is X + Y + Z + U.
own(X, Y, Z, U, V, W) :- own(X), W is X + Y + Z + U + V.
own_sign(X, Sign) :- own(X), compare(Sign, X, 2).

probe_predsort(List, Sorted) :- predsort(own_order, List, Sorted).
probe_max_member(List, Max) :- max_member(own_first, Max, List).
probe_min_member(List, Min) :- min_member(own_first, Min, List).
probe_maplist(Xs) :- maplist(own, Xs).
probe_maplist(Xs, Ys) :- maplist(own, Xs, Ys).
probe_maplist(Xs, Ys, Zs) :- maplist(own, Xs, Ys, Zs).
probe_maplist(Xs, Ys, Zs, Us) :- maplist(own, Xs, Ys, Zs, Us).
probe_maplist(Xs, Ys, Zs, Us, Vs) :- maplist(own, Xs, Ys, Zs, Us, Vs).
probe_maplist(Xs, Ys, Zs, Us, Vs, Ws) :- maplist(own, Xs, Ys, Zs, Us, Vs, Ws).
probe_include(Xs, Ys) :- include(own, Xs, Ys).
probe_exclude(Xs, Ys) :- exclude(own, Xs, Ys).
probe_partition(Xs, Ys, Zs) :- partition(own, Xs, Ys, Zs).
probe_partition(Xs, Less, Equal, Greater) :- partition(own_sign, Xs, Less, Equal, Greater).
probe_convlist(Xs, Ys) :- convlist(own, Xs, Ys).
probe_foldl(Xs, Last) :- foldl(own, Xs, 0, Last).
probe_foldl(Xs, Ys, Last) :- foldl(own, Xs, Ys, 0, Last).
probe_foldl(Xs, Ys, Zs, Last) :- foldl(own, Xs, Ys, Zs, 0, Last).
probe_foldl(Xs, Ys, Zs, Us, Last) :- foldl(own, Xs, Ys, Zs, Us, 0, Last).
probe_scanl(Xs, Values) :- scanl(own, Xs, 0, Values).
probe_scanl(Xs, Ys, Values) :- scanl(own, Xs, Ys, 0, Values).
probe_scanl(Xs, Ys, Zs, Values) :- scanl(own, Xs, Ys, Zs, 0, Values).
probe_scanl(Xs, Ys, Zs, Us, Values) :- scanl(own, Xs, Ys, Zs, Us, 0, Values).
probe_forall(Limit) :- forall(own(X), own_below(X, Limit)).
probe_ignore(X) :- ignore(own(X)).
probe_aggregate_all(Template-X, Result) :- aggregate_all(Template, own(X), Result).
probe_aggregate_all(Count) :- aggregate_all(count, x, own(_), Count).
probe_map_list_to_pairs(Xs, Pairs) :- map_list_to_pairs(own, Xs, Pairs).
probe_named(Xs, Ys) :- maplist(context_probe:own, Xs, Ys).

own_below(X, Limit) :- X < Limit.

:- end_body(context_probe).

:- import(context_probe).
