% sort: 100,000 numbers, of which many are equal, with and without the equal ones
:- import(lists).

main :-
    numbers(100000, 42, Numbers),
    fewer(Numbers, Some),
    msort(Some, Sorted),
    length(Sorted, All),
    sort(Some, Different),
    length(Different, Set),
    write(All-Set), nl.

fewer([], []).
fewer([Number|Numbers], [Less|Some]) :-
    Less is Number mod 50000,
    fewer(Numbers, Some).

numbers(0, _, []) :- !.
numbers(N, Seed, [Next|Numbers]) :-
    Next is (Seed * 1103515245 + 12345) mod 1073741824,
    M is N - 1,
    numbers(M, Next, Numbers).
