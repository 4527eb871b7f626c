% ordsets: sets as lists whose items are in the standard order, each once.

:- module(ordsets).
:- export([
    is_ordset/1, ord_empty/1, list_to_ord_set/2,
    ord_memberchk/2, ord_add_element/3, ord_del_element/3, ord_selectchk/3,
    ord_subset/2, ord_seteq/2, ord_disjoint/2, ord_intersect/2, ord_intersect/3,
    ord_union/3, ord_union/4, ord_union/2, ord_intersection/3, ord_intersection/4, ord_intersection/2,
    ord_subtract/3, ord_symdiff/3, ord_product/3, ord_setproduct/3
]).
:- end_module(ordsets).

:- body(ordsets).
:- import(lists, [is_list/1, sort/2]).

% is_ordset(@Term): Term is a proper list whose items are in the standard order, each once.
is_ordset(Term) :-
    is_list(Term),
    ascending(Term).

ascending([]).
ascending([Item|Set]) :- ascending_after(Set, Item).

ascending_after([], _).
ascending_after([Next|Set], Item) :-
    Item @< Next,
    ascending_after(Set, Next).

% ord_empty(?Set): Set is the empty set.
ord_empty([]).

% list_to_ord_set(+List, ?Set): Set is the set of the items of List.
list_to_ord_set(List, Set) :- sort(List, Set).

% ord_memberchk(@Item, +Set): Item is equal (==) to an item of Set.
ord_memberchk(Item, Set) :-
    need_set(Set, ord_memberchk/2),
    has_item(Set, Item).

has_item([First|Set], Item) :- First @< Item, !, has_item(Set, Item).
has_item([First|_], Item) :- First == Item.

% ord_add_element(+Set, @Item, ?More): More is Set with Item.
ord_add_element(Set, Item, More) :-
    need_set(Set, ord_add_element/3),
    added(Set, Item, Items),
    More = Items.

added([], Item, [Item]).
added([First|Set], Item, [First|More]) :- First @< Item, !, added(Set, Item, More).
added([First|Set], Item, More) :- First == Item, !, More = [First|Set].
added([First|Set], Item, [Item,First|Set]).

% ord_del_element(+Set, @Item, ?Rest): Rest is Set without Item.
ord_del_element(Set, Item, Rest) :-
    need_set(Set, ord_del_element/3),
    removed(Set, Item, Items),
    Rest = Items.

removed([], _, []).
removed([First|Set], Item, [First|Rest]) :- First @< Item, !, removed(Set, Item, Rest).
removed([First|Set], Item, Rest) :- First == Item, !, Rest = Set.
removed([First|Set], _, [First|Set]).

% ord_selectchk(+Item, ?Set, ?Rest): Set is Rest with Item, which isn't in Rest; one of the two is to be known.
ord_selectchk(Item, [First|Set], [First|Rest]) :- First @< Item, !, ord_selectchk(Item, Set, Rest).
ord_selectchk(Item, [Item|Set], Set) :- begins_after(Set, Item).

begins_after([], _).
begins_after([Next|_], Item) :- Item @< Next.

% ord_subset(+Part, +Set): each item of Part is one of Set.
ord_subset(Part, Set) :-
    need_sets(Part, Set, ord_subset/2),
    contained(Part, Set).

contained([], _) :- !.
contained([Item|Part], [First|Set]) :- First @< Item, !, contained([Item|Part], Set).
contained([Item|Part], [First|Set]) :- First == Item, contained(Part, Set).

% ord_seteq(+Set, +Other): the two sets are equal (==).
ord_seteq(Set, Other) :- Set == Other.

% ord_disjoint(+Set, +Other): the two sets have no item in common.
ord_disjoint(Set, Other) :-
    need_sets(Set, Other, ord_disjoint/2),
    \+ share_item(Set, Other).

% ord_intersect(+Set, +Other): the two sets have an item in common.
ord_intersect(Set, Other) :-
    need_sets(Set, Other, ord_intersect/2),
    share_item(Set, Other).

share_item([], _) :- !, fail.
share_item([X|Set], [Y|Other]) :- X @< Y, !, share_item(Set, [Y|Other]).
share_item([X|_], [Y|_]) :- X == Y, !.
share_item(Set, [_|Other]) :- share_item(Set, Other).

% ord_intersect(+Set, +Other, ?Both): an older name of ord_intersection.
ord_intersect(Set, Other, Both) :-
    need_sets(Set, Other, ord_intersect/3),
    common(Set, Other, Items),
    Both = Items.

% ord_union(+Set, +Other, ?Union): Union has the items of both sets.
ord_union(Set, Other, Union) :-
    need_sets(Set, Other, ord_union/3),
    united(Set, Other, Items),
    Union = Items.

united([], Other, Other) :- !.
united(Set, [], Set) :- !.
united([X|Set], [Y|Other], [X|Union]) :- X @< Y, !, united(Set, [Y|Other], Union).
united([X|Set], [Y|Other], [X|Union]) :- X == Y, !, united(Set, Other, Union).
united(Set, [Y|Other], [Y|Union]) :- united(Set, Other, Union).

% ord_union(+Set, +Other, ?Union, ?New): Union has the items of both sets, and New those of Other that aren't in Set.
ord_union(Set, Other, Union, New) :-
    need_sets(Set, Other, ord_union/4),
    united(Set, Other, Items),
    without(Other, Set, Others),
    Union = Items,
    New = Others.

% ord_union(+Sets, ?Union): Union has the items of all sets of the list Sets.
ord_union(Sets, Union) :-
    need_list(Sets, ord_union/2),
    united_all(Sets, Items),
    Union = Items.

% sets are united two by two, until one is left
united_all([], []).
united_all([First|Sets], Union) :- united_rest(Sets, First, Union).

united_rest([], Union, Union).
united_rest([Second|Sets], First, Union) :-
    ord_union(First, Second, Set),
    united_pairs(Sets, Unions),
    united_rest(Unions, Set, Union).

united_pairs([], []).
united_pairs([First|Sets], Unions) :- united_next(Sets, First, Unions).

united_next([], First, [First]).
united_next([Second|Sets], First, [Set|Unions]) :-
    ord_union(First, Second, Set),
    united_pairs(Sets, Unions).

% ord_intersection(+Set, +Other, ?Both): Both has the items that are in both sets.
ord_intersection(Set, Other, Both) :-
    need_sets(Set, Other, ord_intersection/3),
    common(Set, Other, Items),
    Both = Items.

common([], _, []) :- !.
common(_, [], []) :- !.
common([X|Set], [Y|Other], Both) :- X @< Y, !, common(Set, [Y|Other], Both).
common([X|Set], [Y|Other], [X|Both]) :- X == Y, !, common(Set, Other, Both).
common(Set, [_|Other], Both) :- common(Set, Other, Both).

% ord_intersection(+Set, +Other, ?Both, ?New): Both has the items that are in both sets, and New those of Other that aren't in Set.
ord_intersection(Set, Other, Both, New) :-
    need_sets(Set, Other, ord_intersection/4),
    common(Set, Other, Items),
    without(Other, Set, Others),
    Both = Items,
    New = Others.

% ord_intersection(+Sets, ?Both): Both has the items that are in all sets of the list Sets, which isn't empty.
ord_intersection(Sets, Both) :-
    need_list(Sets, ord_intersection/2),
    need_lists(Sets, ord_intersection/2),
    Sets = [First|Others],
    common_to(Others, First, Items),
    Both = Items.

common_to([], Both, Both).
common_to([Set|Sets], Both0, Both) :-
    common(Both0, Set, Both1),
    common_to(Sets, Both1, Both).

% ord_subtract(+Set, +Others, ?Rest): Rest has the items of Set that aren't in Others.
ord_subtract(Set, Others, Rest) :-
    need_sets(Set, Others, ord_subtract/3),
    without(Set, Others, Items),
    Rest = Items.

without([], _, []) :- !.
without(Set, [], Set) :- !.
without([X|Set], [Y|Others], [X|Rest]) :- X @< Y, !, without(Set, [Y|Others], Rest).
without([X|Set], [Y|Others], Rest) :- X == Y, !, without(Set, Others, Rest).
without(Set, [_|Others], Rest) :- without(Set, Others, Rest).

% ord_symdiff(+Set, +Other, ?Difference): Difference has the items that are in one of the two sets alone.
ord_symdiff(Set, Other, Difference) :-
    need_sets(Set, Other, ord_symdiff/3),
    different(Set, Other, Items),
    Difference = Items.

different([], Other, Other) :- !.
different(Set, [], Set) :- !.
different([X|Set], [Y|Other], [X|Difference]) :- X @< Y, !, different(Set, [Y|Other], Difference).
different([X|Set], [Y|Other], Difference) :- X == Y, !, different(Set, Other, Difference).
different(Set, [Y|Other], [Y|Difference]) :- different(Set, Other, Difference).

% ord_product(+Set, +Other, ?Product): Product is the set of the pairs X-Y, X of Set and Y of Other.
ord_product(Set, Other, Product) :-
    need_sets(Set, Other, ord_product/3),
    product(Set, Other, Pairs),
    Product = Pairs.

product([], _, []).
product([X|Set], Other, Pairs) :-
    paired(Other, X, Pairs, Others),
    product(Set, Other, Others).

paired([], _, Pairs, Pairs).
paired([Y|Other], X, [X-Y|Pairs], Others) :- paired(Other, X, Pairs, Others).

% ord_setproduct(+Set, +Other, ?Product): another name of ord_product.
ord_setproduct(Set, Other, Product) :-
    need_sets(Set, Other, ord_setproduct/3),
    product(Set, Other, Pairs),
    Product = Pairs.

% ---- Faults

need_set(Set, Context) :- var(Set), !, throw(error(instantiation_error, Context)).
need_set(_, _).

% where the first set is empty, the other one isn't looked at
need_sets(Set, _, Context) :- var(Set), !, throw(error(instantiation_error, Context)).
need_sets([], _, _) :- !.
need_sets(_, Other, Context) :- need_set(Other, Context).

need_list(Term, _) :- is_list(Term), !.
need_list(Term, Context) :-
    list_end(Term, End),
    ( var(End) -> throw(error(instantiation_error, Context)) ; throw(error(type_error(list, Term), Context)) ).

list_end(Term, End) :- var(Term), !, End = Term.
list_end([_|Rest], End) :- !, list_end(Rest, End).
list_end(End, End).

need_lists([], _).
need_lists([Term|Terms], Context) :-
    need_list(Term, Context),
    need_lists(Terms, Context).

:- end_body(ordsets).
