% ugraphs: graphs with directed edges and without labels.
%
% A graph is a list of pairs Vertex-Neighbours in ascending order of vertices. Neighbours are the vertices that an edge from Vertex leads
% to, in ascending order. Each neighbour has a pair of its own. Edges are pairs From-To.
% Vertices are compared and not unified.

:- module(ugraphs).
:- export([vertices_edges_to_ugraph/3, vertices/2, edges/2, neighbours/3, neighbors/3]).
:- export([add_vertices/3, del_vertices/3, add_edges/3, del_edges/3, ugraph_union/3, connect_ugraph/3]).
:- export([transpose_ugraph/2, complement/2, compose/3, transitive_closure/2, reachable/3, top_sort/2, top_sort/3]).
:- end_module(ugraphs).

:- body(ugraphs).
:- import(lists, [append/3, msort/2, sort/2]).
:- import(pairs, [keysort/2]).
:- import(ordsets, [ord_add_element/3, ord_memberchk/2, ord_subtract/3, ord_union/3]).
:- import(assoc, [assoc_to_keys/2, get_assoc/3, ord_list_to_assoc/2, put_assoc/4]).

% vertices_edges_to_ugraph(+Vertices, +Edges, -Graph): the graph of these edges, whose vertices are their ends and Vertices.
vertices_edges_to_ugraph(Vertices, Edges, Graph) :-
    sort(Edges, Ascending),
    ends_of(Ascending, Ends),
    append(Vertices, Ends, All),
    sort(All, Distinct),
    grouped(Distinct, Ascending, Graph).

ends_of([], []).
ends_of([From-To|Edges], [From, To|Ends]) :- ends_of(Edges, Ends).

% grouped(Vertices, Edges, Graph): both ascend, and each edge goes from one of the vertices.
grouped([], _, []).
grouped([Vertex|Vertices], Edges, [Vertex-Neighbours|Graph]) :-
    edges_from(Edges, Vertex, Neighbours, Rest),
    grouped(Vertices, Rest, Graph).

edges_from([], _, [], []).
edges_from([From-To|Edges], Vertex, Neighbours, Rest) :-
    (   From == Vertex
    ->  Neighbours = [To|Others],
        edges_from(Edges, Vertex, Others, Rest)
    ;   Neighbours = [],
        Rest = [From-To|Edges]
    ).

graph_of_edges(Edges, Graph) :- vertices_edges_to_ugraph([], Edges, Graph).

% vertices(+Graph, -Vertices): the vertices in ascending order.
vertices([], []) :- !.
vertices([Vertex-_|Graph], [Vertex|Vertices]) :- vertices(Graph, Vertices).

% edges(+Graph, -Edges): the edges in ascending order.
edges([], []) :- !.
edges([Vertex-Neighbours|Graph], Edges) :-
    pairs_with(Neighbours, Vertex, Edges, Rest),
    edges(Graph, Rest).

pairs_with([], _, Rest, Rest) :- !.
pairs_with([Neighbour|Neighbours], Vertex, [Vertex-Neighbour|Edges], Rest) :- pairs_with(Neighbours, Vertex, Edges, Rest).

% neighbours(+Vertex, +Graph, -Neighbours): the neighbours of a vertex; fails where it isn't there.
neighbours(Vertex, Graph, Neighbours) :- neighbours_in(Graph, Vertex, Neighbours).

% neighbors(+Vertex, +Graph, -Neighbours): the same.
neighbors(Vertex, Graph, Neighbours) :- neighbours_in(Graph, Vertex, Neighbours).

neighbours_in(Graph, _, _) :- var(Graph), !, throw(error(instantiation_error, neighbours/3)).
neighbours_in([Here-Found|Graph], Vertex, Neighbours) :-
    (   Here == Vertex
    ->  Neighbours = Found
    ;   neighbours_in(Graph, Vertex, Neighbours)
    ).

% add_vertices(+Graph0, +Vertices, -Graph): Graph is Graph0 with Vertices, which have no edges where they are new.
add_vertices(Graph0, Vertices, Graph) :-
    msort(Vertices, Ascending),
    vertices_merged(Graph0, Ascending, Graph).

vertices_merged([], Vertices, Graph) :- !, without_edges(Vertices, Graph).
vertices_merged(Graph0, [], Graph) :- !, Graph = Graph0.
vertices_merged([Here-Neighbours|Graph0], Vertices, Graph) :-
    vertices_merged(Vertices, Here, Neighbours, Graph0, Graph).

vertices_merged([], Here, Neighbours, Graph0, [Here-Neighbours|Graph0]).
vertices_merged([Vertex|Vertices], Here, Neighbours, Graph0, Graph) :-
    compare(Order, Vertex, Here),
    vertices_merged(Order, Vertex, Vertices, Here, Neighbours, Graph0, Graph).

vertices_merged(<, Vertex, Vertices, Here, Neighbours, Graph0, [Vertex-[]|Graph]) :-
    vertices_merged(Vertices, Here, Neighbours, Graph0, Graph).
vertices_merged(=, _, Vertices, Here, Neighbours, Graph0, [Here-Neighbours|Graph]) :-
    vertices_merged(Graph0, Vertices, Graph).
vertices_merged(>, Vertex, Vertices, Here, Neighbours, Graph0, [Here-Neighbours|Graph]) :-
    vertices_merged(Graph0, [Vertex|Vertices], Graph).

without_edges([], []).
without_edges([Vertex|Vertices], [Vertex-[]|Graph]) :- without_edges(Vertices, Graph).

% del_vertices(+Graph0, +Vertices, -Graph): Graph is Graph0 without Vertices and the edges from them and to them.
del_vertices(Graph0, Vertices, Graph) :-
    sort(Vertices, Deleted),
    (   Deleted == []
    ->  Graph = Graph0
    ;   vertices_deleted(Graph0, Deleted, Deleted, Graph)
    ).

% vertices_deleted(Graph0, Vertices, Deleted, Graph): Vertices are those of Deleted that aren't before the first one of Graph0.
vertices_deleted([], _, _, []) :- !.
vertices_deleted([Here-Neighbours|Graph0], Vertices, Deleted, Graph) :-
    vertices_deleted(Vertices, Here, Neighbours, Graph0, Deleted, Graph).

vertices_deleted([], Here, Neighbours, Graph0, Deleted, [Here-Kept|Graph]) :-
    ord_subtract(Neighbours, Deleted, Kept),
    vertices_deleted(Graph0, [], Deleted, Graph).
vertices_deleted([Vertex|Vertices], Here, Neighbours, Graph0, Deleted, Graph) :-
    compare(Order, Vertex, Here),
    vertices_deleted(Order, Vertex, Vertices, Here, Neighbours, Graph0, Deleted, Graph).

vertices_deleted(<, _, Vertices, Here, Neighbours, Graph0, Deleted, Graph) :-
    vertices_deleted(Vertices, Here, Neighbours, Graph0, Deleted, Graph).
vertices_deleted(=, _, Vertices, _, _, Graph0, Deleted, Graph) :-
    vertices_deleted(Graph0, Vertices, Deleted, Graph).
vertices_deleted(>, Vertex, Vertices, Here, Neighbours, Graph0, Deleted, [Here-Kept|Graph]) :-
    ord_subtract(Neighbours, Deleted, Kept),
    vertices_deleted(Graph0, [Vertex|Vertices], Deleted, Graph).

% add_edges(+Graph0, +Edges, -Graph): Graph is Graph0 with Edges and their ends.
add_edges(Graph0, Edges, Graph) :-
    graph_of_edges(Edges, Added),
    ugraph_union(Graph0, Added, Graph).

% del_edges(+Graph0, +Edges, -Graph): Graph is Graph0 without Edges; no vertex goes.
del_edges(Graph0, Edges, Graph) :-
    graph_of_edges(Edges, Deleted),
    edges_deleted(Deleted, Graph0, Graph).

edges_deleted([], Graph, Graph).
edges_deleted([Vertex-Ends|Deleted], Graph0, Graph) :- edges_deleted_from(Graph0, Vertex, Ends, Deleted, Graph).

edges_deleted_from([], _, _, _, []) :- !.
edges_deleted_from([Here-Neighbours|Graph0], Vertex, Ends, Deleted, Graph) :-
    compare(Order, Vertex, Here),
    edges_deleted_from(Order, Vertex, Ends, Deleted, Here, Neighbours, Graph0, Graph).

edges_deleted_from(<, _, _, Deleted, Here, Neighbours, Graph0, Graph) :-
    edges_deleted(Deleted, [Here-Neighbours|Graph0], Graph).
edges_deleted_from(=, _, Ends, Deleted, Here, Neighbours, Graph0, [Here-Kept|Graph]) :-
    ord_subtract(Neighbours, Ends, Kept),
    edges_deleted(Deleted, Graph0, Graph).
edges_deleted_from(>, Vertex, Ends, Deleted, Here, Neighbours, Graph0, [Here-Neighbours|Graph]) :-
    edges_deleted_from(Graph0, Vertex, Ends, Deleted, Graph).

% ugraph_union(+Graph1, +Graph2, -Graph): the vertices and edges of both.
ugraph_union(Graph1, Graph2, Graph) :-
    (   Graph2 = []
    ->  Graph = Graph1
    ;   Graph1 = []
    ->  Graph = Graph2
    ;   Graph1 = [Vertex1-Neighbours1|Rest1],
        Graph2 = [Vertex2-Neighbours2|Rest2],
        compare(Order, Vertex1, Vertex2),
        united(Order, Vertex1, Neighbours1, Rest1, Vertex2, Neighbours2, Rest2, Graph)
    ).

united(<, Vertex1, Neighbours1, Rest1, Vertex2, Neighbours2, Rest2, [Vertex1-Neighbours1|Graph]) :-
    ugraph_union(Rest1, [Vertex2-Neighbours2|Rest2], Graph).
united(=, Vertex, Neighbours1, Rest1, _, Neighbours2, Rest2, [Vertex-Neighbours|Graph]) :-
    ord_union(Neighbours1, Neighbours2, Neighbours),
    ugraph_union(Rest1, Rest2, Graph).
united(>, Vertex1, Neighbours1, Rest1, Vertex2, Neighbours2, Rest2, [Vertex2-Neighbours2|Graph]) :-
    ugraph_union([Vertex1-Neighbours1|Rest1], Rest2, Graph).

% connect_ugraph(+Graph0, -Start, -Graph): Graph is Graph0 with a vertex Start before all others that has an edge to each of them;
% where Graph0 has none, neither has Graph.
connect_ugraph(Graph0, Start, Graph) :-
    vertices(Graph0, Vertices),
    connected(Vertices, Graph0, Start, Graph).

connected([], _, 0, []).
connected([First|Vertices], Graph0, Start, [Start-[First|Vertices]|Graph0]) :- term_before(First, Start).

term_before(Term, Before) :-
    (   var(Term)
    ->  throw(error(instantiation_error, connect_ugraph/3))
    ;   integer(Term)
    ->  Before is Term - 1
    ;   Before = 0
    ).

% transpose_ugraph(+Graph0, -Graph): the same vertices, and each edge the other way round.
transpose_ugraph(Graph0, Graph) :-
    edges(Graph0, Edges),
    vertices(Graph0, Vertices),
    turned(Edges, Turned),
    vertices_edges_to_ugraph(Vertices, Turned, Graph).

turned([], []).
turned([From-To|Edges], [To-From|Turned]) :- turned(Edges, Turned).

% complement(+Graph0, -Graph): the same vertices, and an edge from one to another exactly where Graph0 has none; none from a vertex to
% itself.
complement(Graph0, Graph) :-
    vertices(Graph0, Vertices),
    complement_over(Graph0, Vertices, Graph).

complement_over([], _, []) :- !.
complement_over([Vertex-Neighbours0|Graph0], Vertices, [Vertex-Neighbours|Graph]) :-
    ord_add_element(Neighbours0, Vertex, Others),
    ord_subtract(Vertices, Others, Neighbours),
    complement_over(Graph0, Vertices, Graph).

% compose(+Graph1, +Graph2, -Graph): the vertices of both, and an edge where one of Graph1 and then one of Graph2 lead.
compose(Graph1, Graph2, Graph) :-
    vertices(Graph1, Vertices1),
    vertices(Graph2, Vertices2),
    ord_union(Vertices1, Vertices2, Vertices),
    table_of_neighbours(Graph2, Table),
    composed(Vertices, Graph1, Table, Graph).

composed([], _, _, []).
composed([Vertex|Vertices], Graph1, Table, [Vertex-Neighbours|Graph]) :-
    (   Graph1 = [Here-Middle|Rest1],
        Here == Vertex
    ->  all_neighbours(Middle, Table, [], Neighbours),
        composed(Vertices, Rest1, Table, Graph)
    ;   Neighbours = [],
        composed(Vertices, Graph1, Table, Graph)
    ).

% all_neighbours(Vertices, Table, Neighbours0, Neighbours): those of each of Vertices, and Neighbours0.
all_neighbours([], _, Neighbours, Neighbours).
all_neighbours([Vertex|Vertices], Table, Neighbours0, Neighbours) :-
    (   get_assoc(Vertex, Table, Found)
    ->  ord_union(Found, Neighbours0, Neighbours1)
    ;   Neighbours1 = Neighbours0
    ),
    all_neighbours(Vertices, Table, Neighbours1, Neighbours).

% transitive_closure(+Graph, -Closure): the same vertices, and an edge where one or more edges of Graph lead.
% Vertices that lead to one another are a circle and lead to the same vertices. Circles are found by two walks: where the vertices are
% taken by the end of the first walk, the last one first, the second walk, against the edges, finds a circle before those that it leads to.
transitive_closure(Graph, Closure) :-
    vertices(Graph, Vertices),
    table_of_neighbours(Graph, Table),
    transpose_ugraph(Graph, Against),
    table_of_neighbours(Against, AgainstTable),
    all_walked(Vertices, Table, t, _, [], Ended),
    circles(Ended, AgainstTable, t, [], Circles),
    all_closed(Circles, Table, t, Closures),
    with_closures(Vertices, Closures, Closure).

% all_walked(Vertices, Table, Walked0, Walked, Ended0, Ended): a walk from each of Vertices to all that wasn't walked to before; Ended has
% the vertices by the end of their own walks, the last one first.
all_walked([], _, Walked, Walked, Ended, Ended).
all_walked([Vertex|Vertices], Table, Walked0, Walked, Ended0, Ended) :-
    (   get_assoc(Vertex, Walked0, _)
    ->  all_walked(Vertices, Table, Walked0, Walked, Ended0, Ended)
    ;   put_assoc(Vertex, Walked0, walked, Walked1),
        neighbours_or_none(Vertex, Table, Neighbours),
        all_walked(Neighbours, Table, Walked1, Walked2, Ended0, Ended1),
        all_walked(Vertices, Table, Walked2, Walked, [Vertex|Ended1], Ended)
    ).

% an end of an edge that has no pair of its own has no neighbours
neighbours_or_none(Vertex, Table, Neighbours) :-
    (   get_assoc(Vertex, Table, Found)
    ->  Neighbours = Found
    ;   Neighbours = []
    ).

% circles(Ended, Against, Walked, Circles0, Circles): the last circle that is found stands first.
circles([], _, _, Circles, Circles).
circles([Vertex|Ended], Against, Walked0, Circles0, Circles) :-
    (   get_assoc(Vertex, Walked0, _)
    ->  circles(Ended, Against, Walked0, Circles0, Circles)
    ;   all_walked([Vertex], Against, Walked0, Walked1, [], Circle),
        circles(Ended, Against, Walked1, [Circle|Circles0], Circles)
    ).

% all_closed(Circles, Table, Closures0, Closures): Closures has for each vertex of Circles what it leads to; a circle comes after those that
% it leads to.
all_closed([], _, Closures, Closures).
all_closed([Circle|Circles], Table, Closures0, Closures) :-
    all_led_to(Circle, Table, Closures0, [], Others),
    (   is_circular(Circle, Table)
    ->  sort(Circle, Ascending),
        ord_union(Ascending, Others, Closure)
    ;   Closure = Others
    ),
    given(Circle, Closure, Closures0, Closures1),
    all_closed(Circles, Table, Closures1, Closures).

is_circular([_, _|_], _).
is_circular([Vertex], Table) :-
    neighbours_or_none(Vertex, Table, Neighbours),
    ord_memberchk(Vertex, Neighbours).

% all_led_to(Vertices, Table, Closures, Others0, Others): Others are Others0 and what edges from Vertices lead to outside of their circle.
all_led_to([], _, _, Others, Others).
all_led_to([Vertex|Vertices], Table, Closures, Others0, Others) :-
    neighbours_or_none(Vertex, Table, Neighbours),
    led_to(Neighbours, Closures, Others0, Others1),
    all_led_to(Vertices, Table, Closures, Others1, Others).

led_to([], _, Others, Others).
led_to([Vertex|Vertices], Closures, Others0, Others) :-
    (   get_assoc(Vertex, Closures, Closure),
        \+ ord_memberchk(Vertex, Others0)
    ->  ord_add_element(Closure, Vertex, Added),
        ord_union(Added, Others0, Others1)
    ;   Others1 = Others0
    ),
    led_to(Vertices, Closures, Others1, Others).

given([], _, Closures, Closures).
given([Vertex|Vertices], Closure, Closures0, Closures) :-
    put_assoc(Vertex, Closures0, Closure, Closures1),
    given(Vertices, Closure, Closures1, Closures).

with_closures([], _, []).
with_closures([Vertex|Vertices], Closures, [Vertex-Closure|Graph]) :-
    get_assoc(Vertex, Closures, Closure),
    with_closures(Vertices, Closures, Graph).

% reachable(+Vertex, +Graph, -Vertices): Vertex and all that edges lead to from there, in ascending order; fails where one of them isn't a
% vertex of Graph.
reachable(Vertex, Graph, Vertices) :-
    ( var(Graph) -> throw(error(instantiation_error, reachable/3)) ; vertices(Graph, _) ),
    table_of_neighbours(Graph, Table),
    put_assoc(Vertex, t, reached, Reached0),
    all_reached([Vertex], Table, Reached0, Reached),
    assoc_to_keys(Reached, Vertices).

% table_of_neighbours(Graph, Table): the neighbours of each vertex, also where vertices don't ascend.
table_of_neighbours(Graph, Table) :-
    keysort(Graph, Ascending),
    first_of_each(Ascending, Distinct),
    ord_list_to_assoc(Distinct, Table).

first_of_each([], []).
first_of_each([Vertex-Neighbours|Pairs], [Vertex-Neighbours|Firsts]) :- first_of_others(Pairs, Vertex, Firsts).

first_of_others([], _, []).
first_of_others([Here-Neighbours|Pairs], Vertex, Firsts) :-
    (   Here == Vertex
    ->  first_of_others(Pairs, Vertex, Firsts)
    ;   Firsts = [Here-Neighbours|Others],
        first_of_others(Pairs, Here, Others)
    ).

all_reached([], _, Reached, Reached).
all_reached([Vertex|Waiting0], Table, Reached0, Reached) :-
    get_assoc(Vertex, Table, Neighbours),
    new_reached(Neighbours, Reached0, Reached1, Waiting0, Waiting),
    all_reached(Waiting, Table, Reached1, Reached).

new_reached([], Reached, Reached, Waiting, Waiting).
new_reached([Vertex|Vertices], Reached0, Reached, Waiting0, Waiting) :-
    (   get_assoc(Vertex, Reached0, _)
    ->  new_reached(Vertices, Reached0, Reached, Waiting0, Waiting)
    ;   put_assoc(Vertex, Reached0, reached, Reached1),
        new_reached(Vertices, Reached1, Reached, [Vertex|Waiting0], Waiting)
    ).

% top_sort(+Graph, -Vertices): the vertices, each before its neighbours; fails where edges lead in a circle.
top_sort(Graph, Vertices) :- top_sort(Graph, [], Vertices).

% top_sort(+Graph, ?Rest, -Vertices): the same, followed by Rest.
top_sort(Graph, Rest, Sorted) :-
    vertices(Graph, Vertices),
    table_of_neighbours(Graph, Neighbours),
    none_waited_for(Vertices, Zeros),
    table_of_neighbours(Zeros, Counts0),
    edges_counted(Graph, Counts0, Counts),
    free_vertices(Vertices, Counts, Free),
    sorted_from(Free, Vertices, Neighbours, Counts, Rest, Sorted).

none_waited_for([], []).
none_waited_for([Vertex|Vertices], [Vertex-0|Zeros]) :- none_waited_for(Vertices, Zeros).

% edges_counted(Graph, Counts0, Counts): Counts tells how many edges lead to each vertex; fails where one leads to none of the vertices.
edges_counted([], Counts, Counts).
edges_counted([_-Neighbours|Graph], Counts0, Counts) :-
    ends_counted(Neighbours, Counts0, Counts1),
    edges_counted(Graph, Counts1, Counts).

ends_counted([], Counts, Counts).
ends_counted([Vertex|Vertices], Counts0, Counts) :-
    get_assoc(Vertex, Counts0, Count0),
    Count is Count0 + 1,
    put_assoc(Vertex, Counts0, Count, Counts1),
    ends_counted(Vertices, Counts1, Counts).

free_vertices([], _, []).
free_vertices([Vertex|Vertices], Counts, Free) :-
    (   get_assoc(Vertex, Counts, 0)
    ->  Free = [Vertex|Others]
    ;   Free = Others
    ),
    free_vertices(Vertices, Counts, Others).

% sorted_from(Free, Waiting, Neighbours, Counts, Rest, Sorted): Free are the vertices that can come next; Waiting has as many vertices as
% are still to come.
sorted_from([], [], _, _, Rest, Rest).
sorted_from([Vertex|Free0], [_|Waiting], Neighbours, Counts0, Rest, [Vertex|Sorted]) :-
    get_assoc(Vertex, Neighbours, Ends),
    ends_freed(Ends, Counts0, Counts, Free0, Free),
    sorted_from(Free, Waiting, Neighbours, Counts, Rest, Sorted).

ends_freed([], Counts, Counts, Free, Free).
ends_freed([Vertex|Vertices], Counts0, Counts, Free0, Free) :-
    get_assoc(Vertex, Counts0, Count0),
    Count is Count0 - 1,
    put_assoc(Vertex, Counts0, Count, Counts1),
    (   Count =:= 0
    ->  ends_freed(Vertices, Counts1, Counts, [Vertex|Free0], Free)
    ;   ends_freed(Vertices, Counts1, Counts, Free0, Free)
    ).
:- end_body(ugraphs).
