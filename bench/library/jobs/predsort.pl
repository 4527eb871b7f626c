% predsort: 20,000 numbers by an order of the caller
:- import(lists).

main :-
    numbers(20000, 42, Numbers),
    predsort(by_end, Numbers, [First|_]),
    write(First), nl.

by_end(Sign, X, Y) :-
    EndX is X mod 65536,
    EndY is Y mod 65536,
    compare(Sign, EndX-X, EndY-Y).

numbers(0, _, []) :- !.
numbers(N, Seed, [Next|Numbers]) :-
    Next is (Seed * 1103515245 + 12345) mod 1073741824,
    M is N - 1,
    numbers(M, Next, Numbers).
