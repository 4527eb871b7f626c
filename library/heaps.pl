% heaps: entries of a priority and a key, of which one of the least priority in the standard order is taken first.
%
% A heap is heap(Tree, Size). Tree is a pairing heap: nil, or t(Key, Priority, Heaps), where Heaps is a list of such trees without a
% priority that is less.

:- module(heaps).
:- export([empty_heap/1, singleton_heap/3, is_heap/1, heap_size/2, add_to_heap/4, get_from_heap/4, delete_from_heap/4]).
:- export([min_of_heap/3, min_of_heap/5, merge_heaps/3, list_to_heap/2, heap_to_list/2]).
:- end_module(heaps).

:- body(heaps).
% empty_heap(?Heap): the heap without entries.
empty_heap(heap(nil, 0)).

% singleton_heap(?Heap, ?Priority, ?Key): the heap of one entry.
singleton_heap(heap(t(Key, Priority, []), 1), Priority, Key).

% is_heap(@Term): Term is a heap; that it has as many entries as it tells isn't tested. Nothing is bound.
is_heap(Term) :-
    nonvar(Term),
    Term = heap(Tree, Size),
    integer(Size),
    nonvar(Tree),
    is_tree_of(Tree, Size).

is_tree_of(nil, 0).
is_tree_of(t(_, Priority, Heaps), Size) :- Size > 0, are_heaps(Heaps, Priority).

% are_heaps(Heaps, Least): a list of trees without a priority less than Least.
are_heaps(Heaps, _) :- var(Heaps), !, fail.
are_heaps([], _).
are_heaps([Tree|Heaps], Least) :-
    nonvar(Tree),
    is_tree_from(Tree, Least),
    are_heaps(Heaps, Least).

is_tree_from(nil, _).
is_tree_from(t(_, Priority, Heaps), Least) :- Least @=< Priority, are_heaps(Heaps, Priority).

% heap_size(+Heap, ?Size): how many entries there are.
heap_size(heap(_, Size), Size).

% add_to_heap(+Heap0, +Priority, ?Key, -Heap): Heap is Heap0 with one entry more.
add_to_heap(heap(Tree0, Size0), Priority, Key, heap(Tree, Size)) :-
    Size is Size0 + 1,
    melded(Tree0, t(Key, Priority, []), Tree).

% melded(Tree1, Tree2, Tree): the entries of both.
melded(nil, Tree, Tree) :- !.
melded(t(Key, Priority, Heaps), Tree2, Tree) :- melded_with(Tree2, Key, Priority, Heaps, Tree).

melded_with(nil, Key, Priority, Heaps, t(Key, Priority, Heaps)) :- !.
melded_with(t(Key2, Priority2, Heaps2), Key1, Priority1, Heaps1, Tree) :-
    (   Priority1 @< Priority2
    ->  Tree = t(Key1, Priority1, [t(Key2, Priority2, Heaps2)|Heaps1])
    ;   Tree = t(Key2, Priority2, [t(Key1, Priority1, Heaps1)|Heaps2])
    ).

% get_from_heap(+Heap0, ?Priority, ?Key, -Heap): the first entry of Heap0, and Heap without it; fails where there is none.
get_from_heap(heap(t(Key, Priority, Heaps), Size0), Priority, Key, heap(Tree, Size)) :-
    Size is Size0 - 1,
    paired(Heaps, Tree).

% paired(Heaps, Tree): neighbours are melded, and then what came of them, from the end on.
paired([], nil).
paired([Tree1|Heaps], Tree) :- paired_with(Heaps, Tree1, Tree).

paired_with([], Tree, Tree).
paired_with([Tree2|Heaps], Tree1, Tree) :-
    melded(Tree1, Tree2, First),
    paired(Heaps, Others),
    melded(First, Others, Tree).

% delete_from_heap(+Heap0, ?Priority, ?Key, -Heap): the first entry of Heap0 that has this priority and key, and Heap without it; fails
% where there is none.
delete_from_heap(Heap0, Priority, Key, Heap) :-
    get_from_heap(Heap0, FirstPriority, FirstKey, Others0),
    (   Priority-Key = FirstPriority-FirstKey
    ->  Heap = Others0
    ;   delete_from_heap(Others0, Priority, Key, Others),
        add_to_heap(Others, FirstPriority, FirstKey, Heap)
    ).

% min_of_heap(+Heap, ?Priority, ?Key): the first entry; fails where there is none.
min_of_heap(heap(t(Key, Priority, _), _), Priority, Key).

% min_of_heap(+Heap, ?Priority1, ?Key1, ?Priority2, ?Key2): the first two entries; fails where there are less.
min_of_heap(Heap, Priority1, Key1, Priority2, Key2) :-
    get_from_heap(Heap, Priority1, Key1, Others),
    min_of_heap(Others, Priority2, Key2).

% merge_heaps(+Heap1, +Heap2, -Heap): the entries of both.
merge_heaps(heap(Tree1, Size1), heap(Tree2, Size2), heap(Tree, Size)) :-
    Size is Size1 + Size2,
    melded(Tree1, Tree2, Tree).

% list_to_heap(+Pairs, -Heap): the heap of a list of pairs Priority-Key.
list_to_heap(Pairs, Heap) :- all_added(Pairs, nil, 0, Heap).

all_added([], Tree, Size, heap(Tree, Size)).
all_added([Priority-Key|Pairs], Tree0, Size0, Heap) :-
    Size is Size0 + 1,
    melded(Tree0, t(Key, Priority, []), Tree),
    all_added(Pairs, Tree, Size, Heap).

% heap_to_list(+Heap, -Pairs): the entries as pairs Priority-Key, by ascending priority.
heap_to_list(heap(Tree, Size), Pairs) :- all_taken(Tree, Size, Pairs).

all_taken(nil, 0, []) :- !.
all_taken(t(Key, Priority, Heaps), Size0, [Priority-Key|Pairs]) :-
    Size is Size0 - 1,
    paired(Heaps, Tree),
    all_taken(Tree, Size, Pairs).
:- end_body(heaps).
