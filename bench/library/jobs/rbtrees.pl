% rbtrees: 50,000 keys inserted one after another, and each looked up
:- import(lists).
:- import(rbtrees).

main :-
    numbers(50000, 42, Keys),
    rb_new(Empty),
    put_all(Keys, Empty, Tree),
    get_all(Keys, Tree, 0, Count),
    write(Count), nl.

put_all([], Tree, Tree).
put_all([Key|Keys], Tree0, Tree) :-
    rb_insert(Tree0, Key, here, Tree1),
    put_all(Keys, Tree1, Tree).

get_all([], _, Count, Count).
get_all([Key|Keys], Tree, Count0, Count) :-
    rb_lookup(Key, here, Tree),
    Count1 is Count0 + 1,
    get_all(Keys, Tree, Count1, Count).

numbers(0, _, []) :- !.
numbers(N, Seed, [Next|Numbers]) :-
    Next is (Seed * 1103515245 + 12345) mod 1073741824,
    M is N - 1,
    numbers(M, Next, Numbers).
