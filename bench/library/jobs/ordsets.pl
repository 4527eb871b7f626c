% ordsets: unions, intersections and differences of sets of 20,000 items, and a union of 1,000 sets
:- import(lists).
:- import(ordsets).

main :-
    numbers(20000, 42, Numbers),
    numbers(20000, 7, Others),
    list_to_ord_set(Numbers, X),
    list_to_ord_set(Others, Y),
    ord_union(X, Y, Union),
    ord_subtract(Union, Y, Rest),
    ord_intersection(Union, X, Both),
    ord_symdiff(Rest, Both, None),
    ord_seteq(None, []),
    small_sets(1000, Numbers, Sets),
    ord_union(Sets, All),
    ord_seteq(All, X),
    write(equal), nl.

small_sets(0, _, []) :- !.
small_sets(Count, Numbers, [Set|Sets]) :-
    twenty(20, Numbers, Some, Rest),
    list_to_ord_set(Some, Set),
    Fewer is Count - 1,
    small_sets(Fewer, Rest, Sets).

twenty(0, Rest, [], Rest) :- !.
twenty(Count, [Number|Numbers], [Number|Some], Rest) :-
    Fewer is Count - 1,
    twenty(Fewer, Numbers, Some, Rest).

numbers(0, _, []) :- !.
numbers(N, Seed, [Next|Numbers]) :-
    Next is (Seed * 1103515245 + 12345) mod 1073741824,
    M is N - 1,
    numbers(M, Next, Numbers).
