% A module that calls the metapredicates of assoc and rbtrees with procedures of its own, which no other module sees.
:- module(context_probe_two).
:- export([each_value/1, each_value_fails/0, each_pair/1, each_pair_by_name/2]).
:- export([tree_apply/1, tree_each/1, tree_each_fails/0, tree_map/1, tree_partial_map/1, tree_fold/1]).
:- end_module(context_probe_two).

:- body(context_probe_two).
:- import(assoc, [list_to_assoc/2, assoc_to_list/2, map_assoc/2, map_assoc/3]).
:- import(rbtrees, [list_to_rbtree/2, rb_visit/2, rb_apply/4, rb_map/2, rb_map/3, rb_partial_map/4, rb_fold/4]).

probe_small(Number) :- Number < 10.

probe_double(Number, Double) :- Double is Number * 2.

probe_sum(_-Number, Sum0, Sum) :- Sum is Sum0 + Number.

probe_times(Factor, Number, Product) :- Product is Factor * Number.

numbers([a-1, b-2, c-3]).

each_value(true) :-
    numbers(Pairs),
    list_to_assoc(Pairs, Assoc),
    map_assoc(probe_small, Assoc).

each_value_fails :-
    list_to_assoc([a-1, b-20], Assoc),
    map_assoc(probe_small, Assoc).

each_pair(List) :-
    numbers(Pairs),
    list_to_assoc(Pairs, Assoc0),
    map_assoc(probe_double, Assoc0, Assoc),
    assoc_to_list(Assoc, List).

% the goal is one of the caller's, which this module doesn't see but by the name that it is given with its module
each_pair_by_name(Goal, List) :-
    numbers(Pairs),
    list_to_assoc(Pairs, Assoc0),
    map_assoc(Goal, Assoc0, Assoc),
    assoc_to_list(Assoc, List).

tree_apply(List) :-
    numbers(Pairs),
    list_to_rbtree(Pairs, Tree0),
    rb_apply(Tree0, b, probe_double, Tree),
    rb_visit(Tree, List).

tree_each(true) :-
    numbers(Pairs),
    list_to_rbtree(Pairs, Tree),
    rb_map(Tree, probe_small).

tree_each_fails :-
    list_to_rbtree([a-1, b-20], Tree),
    rb_map(Tree, probe_small).

tree_map(List) :-
    numbers(Pairs),
    list_to_rbtree(Pairs, Tree0),
    rb_map(Tree0, probe_times(10), Tree),
    rb_visit(Tree, List).

tree_partial_map(List) :-
    numbers(Pairs),
    list_to_rbtree(Pairs, Tree0),
    rb_partial_map(Tree0, [a, c], probe_double, Tree),
    rb_visit(Tree, List).

tree_fold(Sum) :-
    numbers(Pairs),
    list_to_rbtree(Pairs, Tree),
    rb_fold(probe_sum, Tree, 0, Sum).
:- end_body(context_probe_two).
