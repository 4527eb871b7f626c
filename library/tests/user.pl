% imports all modules, and has what the cases call
:- import(lists).
:- import(apply).
:- import(pairs).
:- import(ordsets).
:- import(assoc).
:- import(rbtrees).
:- import(heaps).
:- import(ugraphs).
:- import(queues).
:- import(random).

even(N) :- N mod 2 =:= 0.
double(N, M) :- M is N * 2.
half(N, M) :- N mod 2 =:= 0, M is N // 2.
near(_, X) :- member(X, [a,b]).
sign_of(N, Sign) :- compare(Sign, N, 2).
other_sign(_, more).
add(X, Y, Sum) :- Sum is X + Y.
add(X, Y, Z, Sum) :- Sum is X + Y + Z.
add(X, Y, Z, U, Sum) :- Sum is X + Y + Z + U.
add(X, Y, Z, U, V, Sum) :- Sum is X + Y + Z + U + V.
put(X, List, [X|List]).
any_order(<, _, _).
any_order(>, _, _).
no_order(_, _, _) :- fail.
value_order(Sign, _-V, _-W) :- compare(Sign, V, W).
