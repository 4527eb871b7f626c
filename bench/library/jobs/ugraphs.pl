% ugraphs: the transitive closure of a graph of 200 vertices, and an order of a graph of 5,000
:- import(lists).
:- import(ugraphs).

main :-
    numbers(400, 42, Numbers),
    ends(Numbers, Edges),
    vertices_edges_to_ugraph([], Edges, Graph),
    transitive_closure(Graph, Closure),
    edges(Closure, ClosureEdges),
    length(ClosureEdges, Count),
    numbers(20000, 7, Others),
    later(Others, Later),
    vertices_edges_to_ugraph([], Later, Net),
    top_sort(Net, Order),
    length(Order, Length),
    write(Count-Length), nl.

ends([], []).
ends([X,Y|Numbers], [A-B|Edges]) :-
    A is (X >> 8) mod 200,
    B is (Y >> 8) mod 200,
    ends(Numbers, Edges).

later([], []).
later([X,Y|Numbers], [A-B|Edges]) :-
    A is (X >> 8) mod 5000,
    B is A + 1 + (Y >> 8) mod 100,
    later(Numbers, Edges).

numbers(0, _, []) :- !.
numbers(N, Seed, [Next|Numbers]) :-
    Next is (Seed * 1103515245 + 12345) mod 1073741824,
    M is N - 1,
    numbers(M, Next, Numbers).
