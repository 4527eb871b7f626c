% lists: membership, selection, order, positions and sets in plain lists; sorting by the standard order of terms.

:- module(lists).
:- export([
    append/3, append/2, prefix/2, member/2, memberchk/2,
    select/3, selectchk/3, select/4, selectchk/4, delete/3, subseq/3, permutation/2,
    nextto/3, last/2, reverse/2, flatten/2, clumped/2,
    is_list/1, length/2, proper_length/2, same_length/2,
    nth0/3, nth1/3, nth0/4, nth1/4,
    sort/2, msort/2, sort/4, predsort/3, keysort/2,
    max_member/2, min_member/2, max_member/3, min_member/3,
    sum_list/2, sumlist/2, max_list/2, min_list/2, numlist/3,
    is_set/1, list_to_set/2, subset/2, subtract/3, intersection/3, union/3
]).
:- metapredicate([predsort(:, *, *), max_member(:, *, *), min_member(:, *, *)]).
:- end_module(lists).

:- body(lists).

% ---- Parts of lists

% append(?Front, ?Back, ?List): List is Front and then Back.
append([], Back, Back).
append([Item|Front], Back, [Item|List]) :- append(Front, Back, List).

% append(+Lists, ?List): List is the lists of Lists one after another.
append(Lists, List) :-
    need_list(Lists, append/2),
    join(Lists, List).

join([], []).
join([Front|Lists], List) :-
    append(Front, Back, List),
    join(Lists, Back).

% prefix(?Part, ?List): List begins with the items of Part.
prefix([], _).
prefix([Item|Part], [Item|List]) :- prefix(Part, List).

% member(?Item, ?List): Item is an item of List.
member(Item, [First|Rest]) :- member_of(Rest, First, Item).

% the item before the rest is looked at first, so that nothing is left untried at the last one
member_of(_, Item, Item).
member_of([Next|Rest], _, Item) :- member_of(Rest, Next, Item).

% memberchk(?Item, ?List): Item is an item of List; the first that unifies, and no other.
memberchk(Item, List) :- first_member(List, Item, memberchk/2).

first_member([Item|_], Item, _) :- !.
first_member([_|Rest], Item, Caller) :- !, first_member(Rest, Item, Caller).
first_member(End, _, Caller) :- End \== [], throw(error(type_error(list, End), Caller)).

% select(?Item, ?List, ?Rest): Rest is List without one Item.
select(Item, [First|List], Rest) :- select_from(List, First, Item, Rest).

select_from(List, Item, Item, List).
select_from([Next|List], First, Item, [First|Rest]) :- select_from(List, Next, Item, Rest).

% selectchk(?Item, ?List, ?Rest): the first answer of select(Item, List, Rest).
selectchk(Item, List, Rest) :- select(Item, List, Rest), !.

% select(?Old, ?List, ?New, ?Changed): Changed is List with New in the place of one Old.
select(Old, List, New, Changed) :- replace_one(List, Old, New, Changed).

replace_one([Old|List], Old, New, [New|List]).
replace_one([Item|List], Old, New, [Item|Changed]) :- replace_one(List, Old, New, Changed).

% selectchk(?Old, ?List, ?New, ?Changed): the first answer of select(Old, List, New, Changed).
selectchk(Old, List, New, Changed) :- replace_one(List, Old, New, Changed), !.

% delete(+List, @Item, ?Rest): Rest is List without the items that unify with Item; nothing is bound by the test.
delete([], _, []).
delete([First|List], Item, Rest) :-
    First \= Item, !,
    Rest = [First|Others],
    delete(List, Item, Others).
delete([_|List], Item, Rest) :- delete(List, Item, Rest).

% subseq(+List, ?Chosen, ?Others): Chosen has some items of List in their order, and Others has the others.
% subseq(-List, +Chosen, +Others): List is any merge of the two.
subseq(List, Chosen, Others) :- is_list(List), !, split_items(List, Chosen, Others).
subseq(List, Chosen, Others) :- is_list(Chosen), is_list(Others), !, merge_items(Chosen, Others, List).
subseq(List, Chosen, Others) :-
    need_open_list(List),
    need_open_list(Chosen),
    need_open_list(Others),
    throw(error(instantiation_error, subseq/3)).

need_open_list(List) :- list_end(List, End), ( var(End) ; End == [] ), !.
need_open_list(List) :- throw(error(type_error(list, List), subseq/3)).

split_items([], [], []).
split_items([Item|List], Chosen, [Item|Others]) :- split_items(List, Chosen, Others).
split_items([Item|List], [Item|Chosen], Others) :- split_items(List, Chosen, Others).

merge_items([], Others, Others).
merge_items([Item|Chosen], Others, List) :- merge_before(Others, Item, Chosen, List).

merge_before([], Item, Chosen, [Item|Chosen]).
merge_before([Other|Others], Item, Chosen, [Other|List]) :- merge_before(Others, Item, Chosen, List).
merge_before([Other|Others], Item, Chosen, [Item|List]) :- merge_items(Chosen, [Other|Others], List).

% permutation(?List, ?Other): Other has the items of List in any order; where one is open, it gets the length of the other.
permutation(List, Other) :-
    list_end(List, End),
    list_end(Other, OtherEnd),
    same_lengths(End, OtherEnd, List, Other),
    permuted(List, Other).

same_lengths(End, OtherEnd, List, Other) :-
    var(End), var(OtherEnd), !,
    length(List, Length),
    length(Other, Length).
same_lengths(End, OtherEnd, List, Other) :-
    End == [], ( var(OtherEnd) ; OtherEnd == [] ), !,
    count(List, 0, Length),
    length(Other, Length).
same_lengths(End, OtherEnd, List, Other) :-
    var(End), OtherEnd == [], !,
    count(Other, 0, Length),
    length(List, Length).
same_lengths(_, _, List, Other) :-
    need_list(List, permutation/2),
    need_list(Other, permutation/2).

permuted([], []).
permuted([Item|List], [First|Other]) :-
    select_from(List, Item, First, Rest),
    permuted(Rest, Other).

% nextto(?Item, ?Next, ?List): Next stands directly after Item in List.
nextto(Item, Next, [Item,Next|_]).
nextto(Item, Next, [_|List]) :- nextto(Item, Next, List).

% last(?List, ?Item): Item is the last item of List.
last([First|List], Item) :- last_of(List, First, Item).

last_of([], Item, Item).
last_of([Next|List], _, Item) :- last_of(List, Next, Item).

% reverse(?List, ?Reversed): Reversed has the items of List from the last to the first.
reverse(List, Reversed) :- is_list(List), !, reverse_onto(List, [], Reversed).
reverse(List, Reversed) :- is_list(Reversed), !, reverse_onto(Reversed, [], List).
reverse(List, Reversed) :- reverse_onto(List, [], Reversed).

reverse_onto([], Reversed, Reversed).
reverse_onto([Item|List], Onto, Reversed) :- reverse_onto(List, [Item|Onto], Reversed).

% flatten(@Nested, ?Flat): Flat has the items of Nested and of the lists in it, at any depth.
flatten(Nested, Flat) :-
    flat(Nested, [], Items),
    Flat = Items.

flat(Item, Rest, Items) :- var(Item), !, Items = [Item|Rest].
flat([], Rest, Rest) :- !.
flat([First|Others], Rest, Items) :- !,
    flat(First, Middle, Items),
    flat(Others, Rest, Middle).
flat(Item, Rest, [Item|Rest]).

% clumped(+List, ?Counts): for each run of equal (==) items of List, Counts has Item-Count.
clumped([], []).
clumped([Item|List], Counts) :- clump(List, Item, 1, Counts).

clump([], Item, Count, [Item-Count]).
clump([Next|List], Item, Count, Counts) :-
    Next == Item, !,
    More is Count + 1,
    clump(List, Item, More, Counts).
clump([Next|List], Item, Count, [Item-Count|Counts]) :- clump(List, Next, 1, Counts).

% ---- Lengths and positions

% is_list(@Term): Term is a proper list.
is_list(Term) :- var(Term), !, fail.
is_list([]).
is_list([_|Rest]) :- is_list(Rest).

% length(?List, ?Length): List has Length items; an open list is lengthened.
length(List, Length) :-
    integer(Length), !,
    need_length(Length),
    cells(List, Count, End),
    lengthen(End, Count, Length).
length(List, Length) :-
    var(Length), !,
    cells(List, Count, End),
    ( var(End) -> End \== Length, any_length(End, Count, Length) ; Length = Count ).
length(_, Length) :- throw(error(type_error(integer, Length), length/2)).

need_length(Length) :- Length >= 0, !.
need_length(Length) :- throw(error(domain_error(not_less_than_zero, Length), length/2)).

cells(List, Count, End) :- count_cells(List, 0, Count, End), !.
cells(List, _, _) :- throw(error(type_error(list, List), length/2)).

% the number of the items of a list and its end, which is a variable or []; fails where it is anything else
count_cells(List, Count0, Count, End) :- var(List), !, Count = Count0, End = List.
count_cells([], Count, Count, []).
count_cells([_|Rest], Count0, Count, End) :-
    Count1 is Count0 + 1,
    count_cells(Rest, Count1, Count, End).

lengthen(End, Count, Length) :-
    var(End), !,
    More is Length - Count,
    More >= 0,
    open_list(More, End).
lengthen([], Length, Length).

open_list(0, List) :- !, List = [].
open_list(Length, [_|List]) :-
    Shorter is Length - 1,
    open_list(Shorter, List).

any_length([], Length, Length).
any_length([_|List], Count, Length) :-
    Next is Count + 1,
    any_length(List, Next, Length).

% proper_length(@List, ?Length): List is a proper list of Length items.
proper_length(List, Length) :-
    is_list(List),
    count(List, 0, Length).

count([], Count, Count).
count([_|Rest], Count0, Count) :-
    Count1 is Count0 + 1,
    count(Rest, Count1, Count).

% same_length(?List, ?Other): both have the same number of items.
same_length(List, Other) :- is_list(List), !, alike(List, Other).
same_length(List, Other) :- alike(Other, List).

alike([], []).
alike([_|List], [_|Other]) :- alike(List, Other).

% nth0(?Index, ?List, ?Item): Item stands in List at Index, counted from 0.
nth0(Index, List, Item) :- var(Index), !, each_place(List, Item, 0, Index).
nth0(Index, List, Item) :- need_index(Index, nth0/3), Index >= 0, item_at(Index, List, Item).

% nth1(?Index, ?List, ?Item): Item stands in List at Index, counted from 1.
nth1(Index, List, Item) :- var(Index), !, each_place(List, Item, 1, Index).
nth1(Index, List, Item) :- need_index(Index, nth1/3), Index >= 1, Before is Index - 1, item_at(Before, List, Item).

need_index(Index, _) :- integer(Index), !.
need_index(Index, Context) :- throw(error(type_error(integer, Index), Context)).

item_at(0, List, Item) :- !, List = [Item|_].
item_at(Before, [_|List], Item) :-
    Fewer is Before - 1,
    item_at(Fewer, List, Item).

each_place([First|List], Item, Index0, Index) :- each_place(List, First, Item, Index0, Index).

each_place(_, Item, Item, Index, Index).
each_place([Next|List], _, Item, Index0, Index) :-
    Index1 is Index0 + 1,
    each_place(List, Next, Item, Index1, Index).

% nth0(?Index, ?List, ?Item, ?Rest): Item stands in List at Index, counted from 0, and Rest is List without it.
nth0(Index, List, Item, Rest) :- var(Index), !, each_taken(List, Item, Rest, 0, Index).
nth0(Index, List, Item, Rest) :- integer(Index), Index >= 0, !, taken_at(Index, List, Item, Rest).
nth0(Index, _, _, _) :- throw(error(type_error(nonneg, Index), nth0/4)).

% nth1(?Index, ?List, ?Item, ?Rest): the same, counted from 1.
nth1(Index, List, Item, Rest) :- var(Index), !, each_taken(List, Item, Rest, 1, Index).
nth1(Index, List, Item, Rest) :- integer(Index), Index >= 1, !, Before is Index - 1, taken_at(Before, List, Item, Rest).
nth1(Index, _, _, _) :- throw(error(type_error(positive_integer, Index), nth1/4)).

taken_at(0, List, Item, Rest) :- !, List = [Item|Rest].
taken_at(Before, [First|List], Item, [First|Rest]) :-
    Fewer is Before - 1,
    taken_at(Fewer, List, Item, Rest).

each_taken([Item|List], Item, List, Index, Index).
each_taken([First|List], Item, [First|Rest], Index0, Index) :-
    Index1 is Index0 + 1,
    each_taken(List, Item, Rest, Index1, Index).

% ---- Sorting: merge sort, where equal items keep their order

% msort(+List, ?Sorted): Sorted has the items of List in the standard order.
msort(List, Sorted) :-
    need_list(List, msort/2),
    merge_sorted(List, Items),
    Sorted = Items.

% sort(+List, ?Sorted): the same, and of equal (==) items one only.
sort(List, Sorted) :-
    need_list(List, sort/2),
    merge_sorted(List, Items),
    distinct(Items, Different),
    Sorted = Different.

merge_sorted(List, Sorted) :-
    runs(List, Runs),
    merge_runs(Runs, terms, Sorted).

% each item by itself. Runs are merged two by two; no variable is bound to the rest of a list, which could take as long as it has items
runs([], []).
runs([Item|List], [[Item]|Runs]) :- runs(List, Runs).

merge_runs([], _, []).
merge_runs([First|Runs], Kind, Sorted) :- merge_all(Runs, First, Kind, Sorted).

merge_all([], Sorted, _, Sorted).
merge_all([Second|Runs], First, Kind, Sorted) :-
    merge_two(Kind, First, Second, Run),
    merge_pairs(Runs, Kind, Merged),
    merge_all(Merged, Run, Kind, Sorted).

merge_pairs([], _, []).
merge_pairs([First|Runs], Kind, Merged) :- merge_next(Runs, First, Kind, Merged).

merge_next([], First, _, [First]).
merge_next([Second|Runs], First, Kind, [Run|Merged]) :-
    merge_two(Kind, First, Second, Run),
    merge_pairs(Runs, Kind, Merged).

merge_two(terms, Front, Back, Sorted) :- merge(Front, Back, Sorted).
merge_two(@=<, Front, Back, Sorted) :- merge_up(Front, Back, Sorted).
merge_two(@>=, Front, Back, Sorted) :- merge_down(Front, Back, Sorted).
merge_two(by(Order), Front, Back, Sorted) :- merge_by(Front, Back, Order, Sorted).

merge([], Back, Back) :- !.
merge(Front, [], Front) :- !.
merge([X|Front], [Y|Back], [X|Sorted]) :- X @=< Y, !, merge(Front, [Y|Back], Sorted).
merge(Front, [Y|Back], [Y|Sorted]) :- merge(Front, Back, Sorted).

distinct([], []).
distinct([Item|Items], [Item|Different]) :- distinct_after(Items, Item, Different).

distinct_after([], _, []).
distinct_after([Next|Items], Item, Different) :- Next == Item, !, distinct_after(Items, Item, Different).
distinct_after([Next|Items], _, [Next|Different]) :- distinct_after(Items, Next, Different).

% keysort(+Pairs, ?Sorted): Sorted has the pairs Key-Value of Pairs by the standard order of their keys.
keysort(Pairs, Sorted) :-
    need_list(Pairs, keysort/2),
    need_pairs(Pairs),
    sort_keyed(Pairs, @=<, Items),
    Sorted = Items.

need_pairs([]).
need_pairs([Pair|Pairs]) :- need_pair(Pair), need_pairs(Pairs).

need_pair(Pair) :- var(Pair), !, throw(error(instantiation_error, keysort/2)).
need_pair(_-_) :- !.
need_pair(Pair) :- throw(error(type_error(pair, Pair), keysort/2)).

sort_keyed(Pairs, Order, Sorted) :-
    runs(Pairs, Runs),
    merge_runs(Runs, Order, Sorted).

merge_up([], Back, Back) :- !.
merge_up(Front, [], Front) :- !.
merge_up([X-V|Front], [Y-W|Back], [X-V|Sorted]) :- X @=< Y, !, merge_up(Front, [Y-W|Back], Sorted).
merge_up(Front, [Pair|Back], [Pair|Sorted]) :- merge_up(Front, Back, Sorted).

merge_down([], Back, Back) :- !.
merge_down(Front, [], Front) :- !.
merge_down([X-V|Front], [Y-W|Back], [X-V|Sorted]) :- X @>= Y, !, merge_down(Front, [Y-W|Back], Sorted).
merge_down(Front, [Pair|Back], [Pair|Sorted]) :- merge_down(Front, Back, Sorted).

% sort(+Key, +Order, +List, ?Sorted): Sorted has the items of List by their argument number Key, or by themselves where
% Key is 0. Order is @=< or @>=, or @< or @>, which keep of items with equal keys the first one only.
sort(Key, Order, List, Sorted) :-
    need_key(Key),
    need_order(Order),
    need_integer_key(Key),
    need_list(List, sort/4),
    keyed(List, Key, Pairs),
    sort_by(Order, Pairs, Items),
    Sorted = Items.

need_key(Key) :- var(Key), !, throw(error(instantiation_error, sort/4)).
need_key(Key) :- integer(Key), Key < 0, !, throw(error(domain_error(not_less_than_one, Key), sort/4)).
need_key(_).

need_integer_key(Key) :- integer(Key), !.
need_integer_key(Key) :- throw(error(type_error(integer, Key), sort/4)).

need_order(Order) :- var(Order), !, throw(error(instantiation_error, sort/4)).
need_order(Order) :- \+ atom(Order), !, throw(error(type_error(atom, Order), sort/4)).
need_order(Order) :- is_order(Order), !.
need_order(Order) :- throw(error(domain_error(order, Order), sort/4)).

is_order(@<).
is_order(@=<).
is_order(@>).
is_order(@>=).

keyed([], _, []).
keyed([Item|List], Key, [Value-Item|Pairs]) :-
    key_of(Key, Item, Value),
    keyed(List, Key, Pairs).

key_of(0, Item, Value) :- !, Value = Item.
key_of(_, Item, _) :- var(Item), !, throw(error(instantiation_error, sort/4)).
key_of(Key, Item, Value) :- compound(Item), !, argument_of(Key, Item, Value).
key_of(_, Item, _) :- throw(error(type_error(compound, Item), sort/4)).

argument_of(Key, Item, Value) :- arg(Key, Item, Argument), !, Value = Argument.
argument_of(Key, Item, _) :- throw(error(existence_error(argument, Key, Item), sort/4)).

sort_by(@=<, Pairs, Items) :- sort_keyed(Pairs, @=<, Sorted), values(Sorted, Items).
sort_by(@>=, Pairs, Items) :- sort_keyed(Pairs, @>=, Sorted), values(Sorted, Items).
sort_by(@<, Pairs, Items) :- sort_keyed(Pairs, @=<, Sorted), first_values(Sorted, Items).
sort_by(@>, Pairs, Items) :- sort_keyed(Pairs, @>=, Sorted), first_values(Sorted, Items).

values([], []).
values([_-Item|Pairs], [Item|Items]) :- values(Pairs, Items).

first_values([], []).
first_values([Key-Item|Pairs], [Item|Items]) :- first_values_after(Pairs, Key, Items).

first_values_after([], _, []).
first_values_after([Next-_|Pairs], Key, Items) :- Next == Key, !, first_values_after(Pairs, Key, Items).
first_values_after([Next-Item|Pairs], _, [Item|Items]) :- first_values_after(Pairs, Next, Items).

% predsort(+Order, +List, ?Sorted): Sorted has the items of List in the order that call(Order, Sign, Item, Other) tells
% by a Sign of <, = or >; of two items with = the first one only.
predsort(Order, List, Sorted) :-
    need_list(List, predsort/3),
    runs(List, Runs),
    merge_runs(Runs, by(Order), Items),
    Sorted = Items.

merge_by([], Back, _, Back).
merge_by([X|Front], Back, Order, Sorted) :- merge_by_second(Back, X, Front, Order, Sorted).

merge_by_second([], X, Front, _, [X|Front]).
merge_by_second([Y|Back], X, Front, Order, Sorted) :-
    call(Order, Sign, X, Y),
    merge_signed(Sign, X, Front, Y, Back, Order, Sorted).

merge_by_first([], Y, Back, _, [Y|Back]).
merge_by_first([X|Front], Y, Back, Order, Sorted) :-
    call(Order, Sign, X, Y),
    merge_signed(Sign, X, Front, Y, Back, Order, Sorted).

merge_signed(<, X, Front, Y, Back, Order, [X|Sorted]) :- merge_by_first(Front, Y, Back, Order, Sorted).
merge_signed(>, X, Front, Y, Back, Order, [Y|Sorted]) :- merge_by_second(Back, X, Front, Order, Sorted).
merge_signed(=, X, Front, _, Back, Order, [X|Sorted]) :- merge_by(Front, Back, Order, Sorted).

% ---- Greatest and least

% max_member(?Max, +List): Max is the greatest item of List in the standard order.
max_member(Max, List) :-
    need_list(List, max_member/2),
    List = [First|Rest],
    greatest(Rest, First, Max).

greatest([], Max, Max).
greatest([Item|List], Max0, Max) :- Item @> Max0, !, greatest(List, Item, Max).
greatest([_|List], Max0, Max) :- greatest(List, Max0, Max).

% min_member(?Min, +List): Min is the least item of List in the standard order.
min_member(Min, List) :-
    need_list(List, min_member/2),
    List = [First|Rest],
    least(Rest, First, Min).

least([], Min, Min).
least([Item|List], Min0, Min) :- Item @< Min0, !, least(List, Item, Min).
least([_|List], Min0, Min) :- least(List, Min0, Min).

% max_member(+Order, ?Max, +List): Max is the greatest item of List, where call(Order, Item, Other) tells what comes first.
max_member(Order, Max, List) :- is_list(List), !, greatest_by(List, Order, Max).
max_member(Order, Max, List) :-
    marked(List, faulty(List, max_member/3), Items),
    greatest_by(Items, Order, Max).

greatest_by([First|Rest], Order, Max) :- greatest_by(Rest, First, Order, Max).
greatest_by(faulty(List, Caller), _, _) :- need_list(List, Caller).

greatest_by(faulty(List, Caller), _, _, _) :- need_list(List, Caller).
greatest_by([], Max, _, Max).
greatest_by([Item|List], Max0, Order, Max) :- call(Order, Item, Max0), !, greatest_by(List, Max0, Order, Max).
greatest_by([Item|List], _, Order, Max) :- greatest_by(List, Item, Order, Max).

% min_member(+Order, ?Min, +List): Min is the least item of List, where call(Order, Item, Other) tells what comes first.
min_member(Order, Min, List) :- is_list(List), !, least_by(List, Order, Min).
min_member(Order, Min, List) :-
    marked(List, faulty(List, min_member/3), Items),
    least_by(Items, Order, Min).

least_by([First|Rest], Order, Min) :- least_by(Rest, First, Order, Min).
least_by(faulty(List, Caller), _, _) :- need_list(List, Caller).

least_by(faulty(List, Caller), _, _, _) :- need_list(List, Caller).
least_by([], Min, _, Min).
least_by([Item|List], Min0, Order, Min) :- call(Order, Min0, Item), !, least_by(List, Min0, Order, Min).
least_by([Item|List], _, Order, Min) :- least_by(List, Item, Order, Min).

% ---- Lists of numbers

% sum_list(+Numbers, ?Sum): Sum is the sum of the numbers.
sum_list(Numbers, Sum) :- is_list(Numbers), !, sum(Numbers, 0, Sum).
sum_list(Numbers, Sum) :-
    marked(Numbers, faulty(Numbers, sum_list/2), Items),
    sum(Items, 0, Sum).

% sumlist(+Numbers, ?Sum): an older name of sum_list.
sumlist(Numbers, Sum) :- is_list(Numbers), !, sum(Numbers, 0, Sum).
sumlist(Numbers, Sum) :-
    marked(Numbers, faulty(Numbers, sumlist/2), Items),
    sum(Items, 0, Sum).

sum(faulty(Numbers, Caller), _, _) :- need_list(Numbers, Caller).
sum([], Sum, Sum).
sum([Number|Numbers], Sum0, Sum) :-
    Sum1 is Sum0 + Number,
    sum(Numbers, Sum1, Sum).

% max_list(+Numbers, ?Max): Max is the greatest of the numbers.
max_list(Numbers, Max) :- is_list(Numbers), !, greatest_number(Numbers, Max).
max_list(Numbers, Max) :-
    marked(Numbers, faulty(Numbers, max_list/2), Items),
    greatest_number(Items, Max).

greatest_number([First|Rest], Max) :- greatest_number(Rest, First, Max).
greatest_number(faulty(Numbers, Caller), _) :- need_list(Numbers, Caller).

greatest_number(faulty(Numbers, Caller), _, _) :- need_list(Numbers, Caller).
greatest_number([], Max, Max).
greatest_number([Number|Numbers], Max0, Max) :-
    Max0 >= Number, !,
    Max1 is Max0,
    greatest_number(Numbers, Max1, Max).
greatest_number([Number|Numbers], _, Max) :-
    Max1 is Number,
    greatest_number(Numbers, Max1, Max).

% min_list(+Numbers, ?Min): Min is the least of the numbers.
min_list(Numbers, Min) :- is_list(Numbers), !, least_number(Numbers, Min).
min_list(Numbers, Min) :-
    marked(Numbers, faulty(Numbers, min_list/2), Items),
    least_number(Items, Min).

least_number([First|Rest], Min) :- least_number(Rest, First, Min).
least_number(faulty(Numbers, Caller), _) :- need_list(Numbers, Caller).

least_number(faulty(Numbers, Caller), _, _) :- need_list(Numbers, Caller).
least_number([], Min, Min).
least_number([Number|Numbers], Min0, Min) :-
    Min0 =< Number, !,
    Min1 is Min0,
    least_number(Numbers, Min1, Min).
least_number([Number|Numbers], _, Min) :-
    Min1 is Number,
    least_number(Numbers, Min1, Min).

% numlist(+Low, +High, ?Numbers): Numbers is the list of the integers from Low to High; fails where Low is greater.
numlist(Low, High, Numbers) :-
    need_integer(Low),
    need_integer(High),
    Low =< High,
    integers(Low, High, Numbers).

need_integer(Term) :- integer(Term), !.
need_integer(Term) :- var(Term), !, throw(error(instantiation_error, numlist/3)).
need_integer(Term) :- throw(error(type_error(integer, Term), numlist/3)).

integers(High, High, Numbers) :- !, Numbers = [High].
integers(Low, High, [Low|Numbers]) :-
    Next is Low + 1,
    integers(Next, High, Numbers).

% ---- Sets as lists

% is_set(@Term): Term is a proper list without two equal (==) items.
is_set(Term) :-
    is_list(Term),
    merge_sorted(Term, Sorted),
    distinct(Sorted, Different),
    alike(Sorted, Different).

% list_to_set(+List, ?Set): Set has the items of List in their order, of equal (==) ones the first only.
list_to_set(List, Set) :-
    need_list(List, list_to_set/2),
    flagged(List, Pairs),
    sort_keyed(Pairs, @=<, Sorted),
    flag(Sorted),
    kept(Pairs, Items),
    Set = Items.

flagged([], []).
flagged([Item|List], [Item-_|Pairs]) :- flagged(List, Pairs).

flag([]).
flag([Item-first|Pairs]) :- flag_after(Pairs, Item).

flag_after([], _).
flag_after([Next-again|Pairs], Item) :- Next == Item, !, flag_after(Pairs, Item).
flag_after([Next-first|Pairs], _) :- flag_after(Pairs, Next).

kept([], []).
kept([_-again|Pairs], Items) :- !, kept(Pairs, Items).
kept([Item-_|Pairs], [Item|Items]) :- kept(Pairs, Items).

% subset(+Part, +Set): each item of Part unifies with one of Set.
subset(Part, Set) :- is_list(Part), !, all_members(Part, Set).
subset(Part, Set) :-
    marked(Part, faulty(Part, subset/2), Items),
    all_members(Items, Set).

all_members(faulty(Part, Caller), _) :- need_list(Part, Caller).
all_members([], _).
all_members([Item|Part], Set) :-
    first_member(Set, Item, subset/2),
    all_members(Part, Set).

% subtract(+Set, +Others, ?Rest): Rest has the items of Set that unify with none of Others.
subtract(Set, Others, Rest) :- is_list(Set), !, without(Set, Others, Rest).
subtract(Set, Others, Rest) :-
    marked(Set, faulty(Set, subtract/3), Items),
    without(Items, Others, Rest).

without(faulty(Set, Caller), _, _) :- need_list(Set, Caller).
without([], _, []).
without([Item|Set], Others, Rest) :- first_member(Others, Item, subtract/3), !, without(Set, Others, Rest).
without([Item|Set], Others, [Item|Rest]) :- without(Set, Others, Rest).

% intersection(+Set, +Other, ?Both): Both has the items of Set that unify with one of Other.
intersection(Set, Other, Both) :- is_list(Set), !, common(Set, Other, Both).
intersection(Set, Other, Both) :-
    marked(Set, faulty(Set, intersection/3), Items),
    common(Items, Other, Both).

common(faulty(Set, Caller), _, _) :- need_list(Set, Caller).
common([], _, []).
common([Item|Set], Other, Both) :-
    first_member(Other, Item, intersection/3), !,
    Both = [Item|Rest],
    common(Set, Other, Rest).
common([_|Set], Other, Both) :- common(Set, Other, Both).

% union(+Set, +Other, ?Union): Union has the items of Set that unify with none of Other, and then Other.
union(Set, Other, Union) :- is_list(Set), !, united(Set, Other, Union).
union(Set, Other, Union) :-
    marked(Set, faulty(Set, union/3), Items),
    united(Items, Other, Union).

united(faulty(Set, Caller), _, _) :- need_list(Set, Caller).
united([], Other, Other).
united([Item|Set], Other, Union) :- first_member(Other, Item, union/3), !, united(Set, Other, Union).
united([Item|Set], Other, [Item|Union]) :- united(Set, Other, Union).

% ---- Faults

need_list(Term, _) :- is_list(Term), !.
need_list(Term, Context) :-
    list_end(Term, End),
    ( var(End) -> throw(error(instantiation_error, Context)) ; throw(error(type_error(list, Term), Context)) ).

% marked(Term, Mark, Items): Items begins with the items of Term, which is no proper list, and ends with Mark. So items are
% looked at before the end of the list, and a predicate that comes to the mark throws what need_list does.
marked(Term, Mark, Items) :- var(Term), !, Items = Mark.
marked([Item|Rest], Mark, [Item|Items]) :- !, marked(Rest, Mark, Items).
marked(_, Mark, Mark).

% what stands after the last item of a term that begins as a list
list_end(Term, End) :- var(Term), !, End = Term.
list_end([_|Rest], End) :- !, list_end(Rest, End).
list_end(End, End).

:- end_body(lists).
