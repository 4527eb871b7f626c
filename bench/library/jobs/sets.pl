% sets as lists: the first ones of 100,000 items, and 300 items in and out of 2,000
:- import(lists).

main :-
    numbers(100000, 42, Numbers),
    list_to_set(Numbers, Set),
    length(Set, Length),
    numlist(1, 300, Few),
    numlist(200, 2200, Many),
    subtract(Few, Many, Rest),
    intersection(Many, Few, Both),
    union(Rest, Both, Union),
    length(Union, Size),
    write(Length-Size), nl.

numbers(0, _, []) :- !.
numbers(N, Seed, [Next|Numbers]) :-
    Next is (Seed * 1103515245 + 12345) mod 1073741824,
    M is N - 1,
    numbers(M, Next, Numbers).
