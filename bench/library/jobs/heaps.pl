% heaps: 50,000 keys put into a heap and taken out of it
:- import(lists).
:- import(heaps).

main :-
    numbers(50000, 42, Keys),
    empty_heap(Empty),
    put_all(Keys, Empty, Heap),
    get_all(Heap, 0, Sum),
    write(Sum), nl.

put_all([], Heap, Heap).
put_all([Key|Keys], Heap0, Heap) :-
    add_to_heap(Heap0, Key, item, Heap1),
    put_all(Keys, Heap1, Heap).

get_all(Heap0, Sum0, Sum) :-
    get_from_heap(Heap0, Key, item, Heap), !,
    Sum1 is (Sum0 * 3 + Key) mod 1000003,
    get_all(Heap, Sum1, Sum).
get_all(_, Sum, Sum).

numbers(0, _, []) :- !.
numbers(N, Seed, [Next|Numbers]) :-
    Next is (Seed * 1103515245 + 12345) mod 1073741824,
    M is N - 1,
    numbers(M, Next, Numbers).
