% apply: five goals for each of 100,000 items
:- import(lists).
:- import(apply).

main :-
    numlist(1, 100000, Numbers),
    maplist(next, Numbers, Nexts),
    maplist(sum, Numbers, Nexts, Sums),
    include(even, Nexts, Even),
    partition(even, Numbers, _, Odd),
    foldl(sum, Sums, 0, Sum),
    length(Even, EvenLength),
    length(Odd, OddLength),
    write(Sum-EvenLength-OddLength), nl.

next(X, Y) :- Y is X + 1.
sum(X, Y, Z) :- Z is X + Y.
even(X) :- X mod 2 =:= 0.
