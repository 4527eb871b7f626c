% queues: what joins first is served first.
%
% A queue is queue(Front, Back): the elements of the list Front, and then those of the list Back from its end on. Where Front is empty,
% so is Back. A queue stays as it was when an element joins it or is served.

:- module(queues).
:- export([make_queue/1, empty_queue/1, is_queue/1, length_queue/2, head_queue/2, serve_queue/3]).
:- export([join_queue/3, list_join_queue/3, jump_queue/3, list_jump_queue/3, list_to_queue/2, queue_to_list/2]).
:- end_module(queues).

:- body(queues).
:- import(lists, [append/3, length/2, reverse/2]).

% make_queue(-Queue): the queue without elements.
make_queue(queue([], [])).

% empty_queue(+Queue): Queue has no elements.
empty_queue(Queue) :- parts(Queue, Front, _, empty_queue/1), Front = [].

% is_queue(@Term): Term is a queue. Nothing is bound.
is_queue(Term) :-
    nonvar(Term),
    Term = queue(Front, Back),
    is_closed(Front),
    is_closed(Back),
    ( Front == [] -> Back == [] ; true ).

is_closed(List) :- var(List), !, fail.
is_closed([]).
is_closed([_|Tail]) :- is_closed(Tail).

% length_queue(+Queue, ?Length): how many elements there are.
length_queue(Queue, Length) :-
    parts(Queue, Front, Back, length_queue/2),
    length(Front, FrontLength),
    length(Back, BackLength),
    Sum is FrontLength + BackLength,
    Length = Sum.

% head_queue(+Queue, ?Element): the first element; fails where there is none.
head_queue(Queue, Element) :- parts(Queue, Front, _, head_queue/2), Front = [Element|_].

% serve_queue(+Queue0, ?Element, -Queue): the first element of Queue0, and Queue without it; fails where there is none.
serve_queue(Queue0, Element, Queue) :-
    parts(Queue0, [Element|Front], Back, serve_queue/3),
    with_front(Front, Back, Queue).

% with_front(Front, Back, Queue): the queue of these lists, also where Front alone is empty.
with_front([], Back, queue(Front, [])) :- reverse(Back, Front).
with_front([Element|Front], Back, queue([Element|Front], Back)).

% join_queue(?Element, +Queue0, -Queue): Queue is Queue0 with one element more, the last.
join_queue(Element, Queue0, Queue) :- parts(Queue0, Front, Back, join_queue/3), joined(Front, Back, Element, Queue).

joined([], _, Element, queue([Element], [])).
joined([First|Front], Back, Element, queue([First|Front], [Element|Back])).

% list_join_queue(+Elements, +Queue0, -Queue): the same of each element of a list in turn.
list_join_queue(Elements, Queue0, Queue) :-
    must_be_list(Elements, list_join_queue/3),
    parts(Queue0, Front, Back, list_join_queue/3),
    all_joined(Front, Back, Elements, Queue).

all_joined([], _, Elements, queue(Elements, [])).
all_joined([First|Front], Back0, Elements, queue([First|Front], Back)) :- reversed_onto(Elements, Back0, Back).

reversed_onto([], Back, Back).
reversed_onto([Element|Elements], Back0, Back) :- reversed_onto(Elements, [Element|Back0], Back).

% jump_queue(?Element, +Queue0, -Queue): Queue is Queue0 with one element more, the first.
jump_queue(Element, Queue0, queue([Element|Front], Back)) :- parts(Queue0, Front, Back, jump_queue/3).

% list_jump_queue(+Elements, +Queue0, -Queue): the elements of a list stand before those of Queue0, in their order.
list_jump_queue(Elements, Queue0, queue(Front, Back)) :-
    must_be_list(Elements, list_jump_queue/3),
    parts(Queue0, Front0, Back, list_jump_queue/3),
    append(Elements, Front0, Front).

% list_to_queue(+Elements, -Queue): the queue of the elements of a list, in their order.
list_to_queue(Elements, queue(Elements, [])) :- must_be_list(Elements, list_to_queue/2).

% queue_to_list(+Queue, -Elements): the elements in their order.
queue_to_list(Queue, Elements) :-
    parts(Queue, Front, Back, queue_to_list/2),
    reverse(Back, Later),
    append(Front, Later, Elements).

% parts(Queue, Front, Back, Caller): the lists of a queue, or an error.
parts(Queue, Front, Back, Caller) :-
    (   var(Queue)
    ->  throw(error(instantiation_error, Caller))
    ;   Queue = queue(QueueFront, QueueBack)
    ->  Front = QueueFront,
        Back = QueueBack
    ;   throw(error(type_error(queue, Queue), Caller))
    ).

must_be_list(Term, Caller) :- must_be_list(Term, Term, Caller).

must_be_list(Tail, _, Caller) :- var(Tail), !, throw(error(instantiation_error, Caller)).
must_be_list([], _, _) :- !.
must_be_list([_|Tail], Term, Caller) :- !, must_be_list(Tail, Term, Caller).
must_be_list(_, Term, Caller) :- throw(error(type_error(list, Term), Caller)).
:- end_body(queues).
