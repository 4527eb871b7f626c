% assoc: 50,000 keys put one after another, and each looked up
:- import(lists).
:- import(assoc).

main :-
    numbers(50000, 42, Keys),
    empty_assoc(Empty),
    put_all(Keys, Empty, Assoc),
    get_all(Keys, Assoc, 0, Count),
    write(Count), nl.

put_all([], Assoc, Assoc).
put_all([Key|Keys], Assoc0, Assoc) :-
    put_assoc(Key, Assoc0, here, Assoc1),
    put_all(Keys, Assoc1, Assoc).

get_all([], _, Count, Count).
get_all([Key|Keys], Assoc, Count0, Count) :-
    get_assoc(Key, Assoc, here),
    Count1 is Count0 + 1,
    get_all(Keys, Assoc, Count1, Count).

numbers(0, _, []) :- !.
numbers(N, Seed, [Next|Numbers]) :-
    Next is (Seed * 1103515245 + 12345) mod 1073741824,
    M is N - 1,
    numbers(M, Next, Numbers).
