% apply: goals called for the items of lists, for all answers of a goal, and for what a goal's answers come to.

:- module(apply).
:- export([
    maplist/2, maplist/3, maplist/4, maplist/5, maplist/6, maplist/7,
    include/3, exclude/3, partition/4, partition/5, convlist/3,
    foldl/4, foldl/5, foldl/6, foldl/7, scanl/4, scanl/5, scanl/6, scanl/7,
    forall/2, ignore/1, aggregate_all/3, aggregate_all/4
]).
:- metapredicate([
    maplist(:, *), maplist(:, *, *), maplist(:, *, *, *), maplist(:, *, *, *, *),
    maplist(:, *, *, *, *, *), maplist(:, *, *, *, *, *, *),
    include(:, *, *), exclude(:, *, *), partition(:, *, *, *), partition(:, *, *, *, *), convlist(:, *, *),
    foldl(:, *, *, *), foldl(:, *, *, *, *), foldl(:, *, *, *, *, *), foldl(:, *, *, *, *, *, *),
    scanl(:, *, *, *), scanl(:, *, *, *, *), scanl(:, *, *, *, *, *), scanl(:, *, *, *, *, *, *),
    forall(:, :), ignore(:), aggregate_all(*, :, *), aggregate_all(*, *, :, *)
]).
:- end_module(apply).

:- body(apply).
:- import(lists, [
    member/2, is_list/1, same_length/2, length/2, sort/2, sum_list/2, max_list/2, min_list/2
]).

% ---- A goal for each item

% maplist(+Goal, ?List): call(Goal, Item) holds for each item of List.
maplist(Goal, List) :- map(List, Goal).

map([], _).
map([X|Xs], Goal) :-
    call(Goal, X),
    map(Xs, Goal).

% maplist(+Goal, ?List, ..): call(Goal, Item, ..) holds for the items of the lists that stand at the same place.
maplist(Goal, Xs, Ys) :-
    lead(Xs, [Ys]),
    map(Xs, Ys, Goal).

map([], [], _).
map([X|Xs], [Y|Ys], Goal) :-
    call(Goal, X, Y),
    map(Xs, Ys, Goal).

maplist(Goal, Xs, Ys, Zs) :-
    lead(Xs, [Ys,Zs]),
    map(Xs, Ys, Zs, Goal).

map([], [], [], _).
map([X|Xs], [Y|Ys], [Z|Zs], Goal) :-
    call(Goal, X, Y, Z),
    map(Xs, Ys, Zs, Goal).

maplist(Goal, Xs, Ys, Zs, Us) :-
    lead(Xs, [Ys,Zs,Us]),
    map(Xs, Ys, Zs, Us, Goal).

map([], [], [], [], _).
map([X|Xs], [Y|Ys], [Z|Zs], [U|Us], Goal) :-
    call(Goal, X, Y, Z, U),
    map(Xs, Ys, Zs, Us, Goal).

maplist(Goal, Xs, Ys, Zs, Us, Vs) :-
    lead(Xs, [Ys,Zs,Us,Vs]),
    map(Xs, Ys, Zs, Us, Vs, Goal).

map([], [], [], [], [], _).
map([X|Xs], [Y|Ys], [Z|Zs], [U|Us], [V|Vs], Goal) :-
    call(Goal, X, Y, Z, U, V),
    map(Xs, Ys, Zs, Us, Vs, Goal).

maplist(Goal, Xs, Ys, Zs, Us, Vs, Ws) :-
    lead(Xs, [Ys,Zs,Us,Vs,Ws]),
    map(Xs, Ys, Zs, Us, Vs, Ws, Goal).

map([], [], [], [], [], [], _).
map([X|Xs], [Y|Ys], [Z|Zs], [U|Us], [V|Vs], [W|Ws], Goal) :-
    call(Goal, X, Y, Z, U, V, W),
    map(Xs, Ys, Zs, Us, Vs, Ws, Goal).

% where the first list is a variable, and another one is a proper list, the first one gets its length: it leads
lead(List, _) :- nonvar(List), !.
lead(List, Others) :-
    member(Other, Others),
    is_list(Other), !,
    same_length(Other, List).
lead(_, _).

% include(+Goal, +List, ?Included): Included has the items of List for which call(Goal, Item) holds.
include(Goal, List, Included) :- included(List, Goal, Included).

included([], _, []).
included([Item|List], Goal, Included) :-
    call(Goal, Item), !,
    Included = [Item|Others],
    included(List, Goal, Others).
included([_|List], Goal, Included) :- included(List, Goal, Included).

% exclude(+Goal, +List, ?Excluded): Excluded has the items of List for which call(Goal, Item) doesn't hold.
exclude(Goal, List, Excluded) :- excluded(List, Goal, Excluded).

excluded([], _, []).
excluded([Item|List], Goal, Excluded) :- call(Goal, Item), !, excluded(List, Goal, Excluded).
excluded([Item|List], Goal, [Item|Excluded]) :- excluded(List, Goal, Excluded).

% partition(+Goal, +List, ?Included, ?Excluded): both of these at once.
partition(Goal, List, Included, Excluded) :- parted(List, Goal, Included, Excluded).

parted([], _, [], []).
parted([Item|List], Goal, Included, Excluded) :-
    call(Goal, Item), !,
    Included = [Item|Others],
    parted(List, Goal, Others, Excluded).
parted([Item|List], Goal, Included, [Item|Excluded]) :- parted(List, Goal, Included, Excluded).

% partition(+Goal, +List, ?Less, ?Equal, ?Greater): call(Goal, Item, Sign) tells by <, = or > to which list an item of List goes.
partition(Goal, List, Less, Equal, Greater) :- parted_by_sign(List, Goal, Less, Equal, Greater).

parted_by_sign([], _, [], [], []).
parted_by_sign([Item|List], Goal, Less, Equal, Greater) :-
    call(Goal, Item, Sign),
    put_by_sign(Sign, Item, Less, Equal, Greater, Less1, Equal1, Greater1),
    parted_by_sign(List, Goal, Less1, Equal1, Greater1).

put_by_sign(<, Item, Less, Equal, Greater, Less1, Equal1, Greater1) :- !,
    Less = [Item|Less1], Equal = Equal1, Greater = Greater1.
put_by_sign(=, Item, Less, Equal, Greater, Less1, Equal1, Greater1) :- !,
    Less = Less1, Equal = [Item|Equal1], Greater = Greater1.
put_by_sign(>, Item, Less, Equal, Greater, Less1, Equal1, Greater1) :- !,
    Less = Less1, Equal = Equal1, Greater = [Item|Greater1].
put_by_sign(Sign, _, _, _, _, _, _, _) :- throw(error(type_error(oneof([<,=,>]), Sign), partition/5)).

% convlist(+Goal, +List, ?Images): Images has an Image for each item of List for which call(Goal, Item, Image) holds.
convlist(Goal, List, Images) :- images(List, Goal, Images).

images([], _, []).
images([Item|List], Goal, Images) :-
    call(Goal, Item, Image), !,
    Images = [Image|Others],
    images(List, Goal, Others).
images([_|List], Goal, Images) :- images(List, Goal, Images).

% ---- A value passed along

% foldl(+Goal, +List, .., ?First, ?Last): call(Goal, Item, .., Value, Next) takes a value along the lists, from First to Last.
foldl(Goal, Xs, First, Last) :- fold(Xs, Goal, First, Last).

fold([], _, Last, Last).
fold([X|Xs], Goal, Value, Last) :-
    call(Goal, X, Value, Next),
    fold(Xs, Goal, Next, Last).

foldl(Goal, Xs, Ys, First, Last) :-
    lead(Xs, [Ys]),
    fold(Xs, Ys, Goal, First, Last).

fold([], [], _, Last, Last).
fold([X|Xs], [Y|Ys], Goal, Value, Last) :-
    call(Goal, X, Y, Value, Next),
    fold(Xs, Ys, Goal, Next, Last).

foldl(Goal, Xs, Ys, Zs, First, Last) :-
    lead(Xs, [Ys,Zs]),
    fold(Xs, Ys, Zs, Goal, First, Last).

fold([], [], [], _, Last, Last).
fold([X|Xs], [Y|Ys], [Z|Zs], Goal, Value, Last) :-
    call(Goal, X, Y, Z, Value, Next),
    fold(Xs, Ys, Zs, Goal, Next, Last).

foldl(Goal, Xs, Ys, Zs, Us, First, Last) :-
    lead(Xs, [Ys,Zs,Us]),
    fold(Xs, Ys, Zs, Us, Goal, First, Last).

fold([], [], [], [], _, Last, Last).
fold([X|Xs], [Y|Ys], [Z|Zs], [U|Us], Goal, Value, Last) :-
    call(Goal, X, Y, Z, U, Value, Next),
    fold(Xs, Ys, Zs, Us, Goal, Next, Last).

% scanl(+Goal, +List, .., ?First, ?Values): the same, and Values has all values, the first one too.
scanl(Goal, Xs, First, [First|Values]) :- scan(Xs, Goal, First, Values).

scan([], _, _, []).
scan([X|Xs], Goal, Value, [Next|Values]) :-
    call(Goal, X, Value, Next),
    scan(Xs, Goal, Next, Values).

scanl(Goal, Xs, Ys, First, [First|Values]) :-
    lead(Xs, [Ys]),
    scan(Xs, Ys, Goal, First, Values).

scan([], [], _, _, []).
scan([X|Xs], [Y|Ys], Goal, Value, [Next|Values]) :-
    call(Goal, X, Y, Value, Next),
    scan(Xs, Ys, Goal, Next, Values).

scanl(Goal, Xs, Ys, Zs, First, [First|Values]) :-
    lead(Xs, [Ys,Zs]),
    scan(Xs, Ys, Zs, Goal, First, Values).

scan([], [], [], _, _, []).
scan([X|Xs], [Y|Ys], [Z|Zs], Goal, Value, [Next|Values]) :-
    call(Goal, X, Y, Z, Value, Next),
    scan(Xs, Ys, Zs, Goal, Next, Values).

scanl(Goal, Xs, Ys, Zs, Us, First, [First|Values]) :-
    lead(Xs, [Ys,Zs,Us]),
    scan(Xs, Ys, Zs, Us, Goal, First, Values).

scan([], [], [], [], _, _, []).
scan([X|Xs], [Y|Ys], [Z|Zs], [U|Us], Goal, Value, [Next|Values]) :-
    call(Goal, X, Y, Z, U, Value, Next),
    scan(Xs, Ys, Zs, Us, Goal, Next, Values).

% ---- All answers of a goal

% forall(+Condition, +Action): Action holds for each answer of Condition; nothing is bound.
forall(Condition, Action) :- \+ ( call(Condition), \+ call(Action) ).

% ignore(+Goal): the first answer of Goal, or true where it has none.
ignore(Goal) :- call(Goal), !.
ignore(_).

% aggregate_all(+Template, +Goal, ?Result): what all answers of Goal come to. Template is count, sum(X), max(X), min(X),
% max(X, Witness), min(X, Witness), bag(X) or set(X), or a compound term of such templates.
aggregate_all(Template, Goal, Result) :-
    need_template(Template, aggregate_all/3),
    bare_goal(Goal, Bare),
    aggregated(Template, Bare, Result).

need_template(Template, Context) :- var(Template), !, throw(error(instantiation_error, Context)).
need_template(Template, Context) :- integer(Template), !, throw(error(type_error(aggregate_template, Template), Context)).
need_template(Template, Context) :-
    atom(Template), Template \== count, !,
    throw(error(domain_error(aggregate_template, Template), Context)).
need_template(_, _).

% a goal without the variables that bagof and setof would be told of
bare_goal(Goal, Goal) :- var(Goal), !.
bare_goal(Module:Goal, Module:Bare) :- nonvar(Goal), !, bare_goal(Goal, Bare).
bare_goal(_^Goal, Bare) :- !, bare_goal(Goal, Bare).
bare_goal(Goal, Goal).

aggregated(count, Goal, Count) :- !,
    findall(answer, Goal, Answers),
    length(Answers, Count).
aggregated(sum(X), Goal, Sum) :- !,
    findall(Value, ( call(Goal), Value is X ), Values),
    sum_list(Values, Sum).
aggregated(max(X), Goal, Max) :- !,
    findall(Value, ( call(Goal), Value is X ), Values),
    max_list(Values, Max).
aggregated(min(X), Goal, Min) :- !,
    findall(Value, ( call(Goal), Value is X ), Values),
    min_list(Values, Min).
aggregated(max(X, Witness), Goal, Result) :- !,
    findall(X-Witness, Goal, Pairs),
    need_number(Pairs),
    max_witness(Pairs, Result).
aggregated(min(X, Witness), Goal, Result) :- !,
    findall(X-Witness, Goal, Pairs),
    need_number(Pairs),
    min_witness(Pairs, Result).
aggregated(bag(X), Goal, Bag) :- !,
    findall(X, Goal, Bag).
aggregated(set(X), Goal, Set) :- !,
    findall(X, Goal, Bag),
    sort(Bag, Set).
aggregated(Template, Goal, Result) :-
    pattern(Template, aggregate_all/3, Pattern, Expressions, Kind),
    findall(Pattern, ( call(Goal), evaluated(Expressions) ), Patterns),
    kind_result(Kind, Patterns, Result).

need_number([X-_|_]) :- \+ number(X), !, throw(error(type_error(number, X), aggregate_all/3)).
need_number(_).

% aggregate_all(+Template, +Discriminator, +Goal, ?Result): the same over the answers that differ in Discriminator or in what
% Template takes from them, in the standard order of Discriminator.
aggregate_all(Template, Discriminator, Goal, Result) :-
    need_template(Template, aggregate_all/4),
    bare_goal(Goal, Bare),
    pattern(Template, aggregate_all/4, Pattern, Expressions, Kind),
    findall(Discriminator-Pattern, ( call(Bare), evaluated(Expressions) ), Answers),
    sort(Answers, Different),
    seconds(Different, Patterns),
    kind_result(Kind, Patterns, Result).

seconds([], []).
seconds([_-Second|Pairs], [Second|Seconds]) :- seconds(Pairs, Seconds).

% what is kept of an answer: its pattern, once the expressions have their values, and how patterns are put together
pattern(Template, _, Pattern, Expressions, Kind) :- simple_pattern(Template, Pattern, Expressions, Kind), !.
pattern(Template, Context, row(Patterns), Expressions, row(Name, Kinds)) :-
    Template =.. [Name|Templates],
    patterns(Templates, Context, Patterns, Expressions, Kinds).

simple_pattern(count, answer, [], count).
simple_pattern(sum(X), Value, [Value=X], sum).
simple_pattern(max(X), Value, [Value=X], max).
simple_pattern(min(X), Value, [Value=X], min).
simple_pattern(max(X, Witness), Value-Witness, [Value=X], max_witness).
simple_pattern(min(X, Witness), Value-Witness, [Value=X], min_witness).
simple_pattern(bag(X), X, [], bag).
simple_pattern(set(X), X, [], set).

patterns([], _, [], [], []).
patterns([Template|Templates], Context, [Pattern|Patterns], Expressions, [Kind|Kinds]) :-
    need_simple(Template, Context),
    simple_pattern(Template, Pattern, Own, Kind),
    before(Own, Others, Expressions),
    patterns(Templates, Context, Patterns, Others, Kinds).

need_simple(Template, Context) :- var(Template), !, throw(error(instantiation_error, Context)).
need_simple(Template, _) :- simple_pattern(Template, _, _, _), !.
need_simple(Template, Context) :- integer(Template), !, throw(error(type_error(aggregate_template, Template), Context)).
need_simple(Template, Context) :- throw(error(domain_error(aggregate_template, Template), Context)).

before([], Others, Others).
before([Own], Others, [Own|Others]).

evaluated([]).
evaluated([Value=Expression|Expressions]) :-
    Value is Expression,
    evaluated(Expressions).

kind_result(count, Patterns, Count) :- length(Patterns, Count).
kind_result(sum, Values, Sum) :- sum_list(Values, Sum).
kind_result(max, Values, Max) :- max_list(Values, Max).
kind_result(min, Values, Min) :- min_list(Values, Min).
kind_result(max_witness, Pairs, Result) :- max_witness(Pairs, Result).
kind_result(min_witness, Pairs, Result) :- min_witness(Pairs, Result).
kind_result(bag, Bag, Bag).
kind_result(set, Bag, Set) :- sort(Bag, Set).
kind_result(row(Name, Kinds), Rows, Result) :-
    row_results(Kinds, Rows, Results),
    Result =.. [Name|Results].

row_results([], _, []).
row_results([Kind|Kinds], Rows, [Result|Results]) :-
    column(Rows, Patterns, Others),
    kind_result(Kind, Patterns, Result),
    row_results(Kinds, Others, Results).

column([], [], []).
column([row([Pattern|Patterns])|Rows], [Pattern|Column], [row(Patterns)|Others]) :- column(Rows, Column, Others).

max_witness([X-Witness|Pairs], max(Max, Last)) :- greater_pair(Pairs, X, Witness, Max, Last).

greater_pair([], Max, Witness, Max, Witness).
greater_pair([X-Witness|Pairs], Max0, _, Max, Last) :- X > Max0, !, greater_pair(Pairs, X, Witness, Max, Last).
greater_pair([_|Pairs], Max0, Witness, Max, Last) :- greater_pair(Pairs, Max0, Witness, Max, Last).

min_witness([X-Witness|Pairs], min(Min, Last)) :- less_pair(Pairs, X, Witness, Min, Last).

less_pair([], Min, Witness, Min, Witness).
less_pair([X-Witness|Pairs], Min0, _, Min, Last) :- X < Min0, !, less_pair(Pairs, X, Witness, Min, Last).
less_pair([_|Pairs], Min0, Witness, Min, Last) :- less_pair(Pairs, Min0, Witness, Min, Last).

:- end_body(apply).
