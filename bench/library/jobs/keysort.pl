% keysort: 100,000 pairs by their keys, and turned, by their values
:- import(lists).
:- import(pairs).

main :-
    numbers(100000, 42, Keys),
    numbers(100000, 7, Values),
    pairs_keys_values(Pairs, Keys, Values),
    keysort(Pairs, Sorted),
    transpose_pairs(Sorted, [Value-Key|_]),
    write(Value-Key), nl.

numbers(0, _, []) :- !.
numbers(N, Seed, [Next|Numbers]) :-
    Next is (Seed * 1103515245 + 12345) mod 1073741824,
    M is N - 1,
    numbers(M, Next, Numbers).
