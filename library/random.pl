% random: random numbers that a test repeats; each predicate takes the state of a generator and tells the next one.
%
% A state is an integer of 48 bits. The next one is (State * 25214903917 + 11) mod 2^48, a linear congruential generator that takes all of
% them in turn; numbers are made of its upper 31 bits. This isn't for secrets.

:- module(random).
:- export([random_state/2, random_bits/3, random/5, random_between/5, maybe/5]).
:- export([random_member/4, random_select/5, random_permutation/4, random_subseq/5, random_perm2/6]).
:- export([randset/5, randseq/5, random_numlist/7]).
:- end_module(random).

:- body(random).
:- import(lists, [length/2, nth0/3, nth0/4]).
:- import(pairs, [keysort/2, pairs_values/2]).

% random_state(+Seed, -State): the state to begin with for an integer.
random_state(Seed, State) :-
    must_be_integer(Seed, random_state/2),
    Bits is Seed /\ 0xFFFFFFFFFFFF,
    Others is (Seed >> 48) /\ 0xFFFF,
    step(Bits, State1),
    Mixed is ((State1 /\ 0xFFFFFF) << 24) \/ (State1 >> 24),
    step(Mixed, State2),
    Sum is (State2 + Others * 0x9E3779B1) /\ 0xFFFFFFFFFFFF,
    step(Sum, State).

% step(State0, State): the halves of State0 are taken one after another, so that no product has more than 63 bits.
step(State0, State) :-
    Low is State0 /\ 0xFFFFFF,
    High is (State0 >> 24) /\ 0xFFFFFF,
    Upper is (High * 25214903917) /\ 0xFFFFFF,
    State is (Low * 25214903917 + 11 + (Upper << 24)) /\ 0xFFFFFFFFFFFF.

% random_bits(-Bits, +State0, -State): an integer of 31 bits, 0 to 2147483647.
random_bits(Bits, State0, State) :-
    must_be_integer(State0, random_bits/3),
    bits(Number, State0, Next),
    Bits = Number,
    State = Next.

bits(Bits, State0, State) :-
    step(State0, State),
    Bits is State >> 17.

% below(Count, Number, State0, State): an integer from 0 to Count - 1, each as likely as another; Count is at least 1. Numbers past the
% last whole multiple of Count are drawn again.
below(Count, Number, State0, State) :-
    (   Count =< 0x80000000
    ->  Past is 0x80000000 - 0x80000000 mod Count,
        below_of_one(Count, Past, Number, State0, State)
    ;   Count =< 0x4000000000000000
    ->  Past is 0x4000000000000000 - 0x4000000000000000 mod Count,
        below_of_two(Count, Past, Number, State0, State)
    ;   below_of_three(Count, Number, State0, State)
    ).

below_of_one(Count, Past, Number, State0, State) :-
    bits(Bits, State0, State1),
    (   Bits < Past
    ->  Number is Bits mod Count,
        State = State1
    ;   below_of_one(Count, Past, Number, State1, State)
    ).

below_of_two(Count, Past, Number, State0, State) :-
    two_bits(Bits, State0, State1),
    (   Bits < Past
    ->  Number is Bits mod Count,
        State = State1
    ;   below_of_two(Count, Past, Number, State1, State)
    ).

two_bits(Bits, State0, State) :-
    bits(Upper, State0, State1),
    bits(Lower, State1, State),
    Bits is (Upper << 31) \/ Lower.

below_of_three(Count, Number, State0, State) :-
    two_bits(Upper, State0, State1),
    bits(Lower, State1, State2),
    Bits is (Upper << 1) \/ (Lower >> 30),
    (   Bits < Count
    ->  Number = Bits,
        State = State2
    ;   below_of_three(Count, Number, State2, State)
    ).

% random(+Low, +High, -Number, +State0, -State): an integer from Low to High - 1; an error where there is none.
random(Low, High, Number, State0, State) :-
    must_be_integer(Low, random/5),
    must_be_integer(High, random/5),
    must_be_integer(State0, random/5),
    Count is High - Low,
    must_be_positive(Count, random/5),
    below(Count, Above, State0, Next),
    Found is Low + Above,
    Number = Found,
    State = Next.

% random_between(+Low, +High, -Number, +State0, -State): an integer from Low to High; fails where there is none.
random_between(Low, High, Number, State0, State) :-
    must_be_integer(Low, random_between/5),
    must_be_integer(High, random_between/5),
    must_be_integer(State0, random_between/5),
    High >= Low,
    between(Low, High, Found, State0, Next),
    Number = Found,
    State = Next.

between(Low, High, Number, State0, State) :-
    Count is High - Low + 1,
    below(Count, Above, State0, State),
    Number is Low + Above.

% maybe(+Part, +Whole, -Answer, +State0, -State): Answer is true with the probability Part / Whole, and else false.
maybe(Part, Whole, Answer, State0, State) :-
    must_be_part(Part, Whole, maybe/5),
    must_be_integer(State0, maybe/5),
    chance(Part, Whole, Found, State0, Next),
    Answer = Found,
    State = Next.

chance(Part, Whole, Answer, State0, State) :-
    below(Whole, Number, State0, State),
    ( Number < Part -> Answer = true ; Answer = false ).

% random_member(-Element, +List, +State0, -State): an element of a list; fails where there is none.
random_member(Element, List, State0, State) :-
    must_be_list(List, random_member/4),
    must_be_integer(State0, random_member/4),
    length(List, Count),
    Count > 0,
    below(Count, Place, State0, Next),
    nth0(Place, List, Element),
    State = Next.

% random_select(-Element, +List, -Rest, +State0, -State): an element of a list, and the list without it; fails where there is none.
% random_select(+Element, -List, +Rest, +State0, -State): List is Rest with Element put in somewhere.
random_select(Element, List, Rest, State0, State) :-
    must_be_integer(State0, random_select/5),
    choices(List, Rest, Count),
    Count > 0,
    below(Count, Place, State0, Next),
    nth0(Place, List, Element, Rest),
    State = Next.

choices(List, Rest, Count) :-
    (   is_closed(List)
    ->  length(List, Count)
    ;   is_closed(Rest)
    ->  length(Rest, RestCount),
        Count is RestCount + 1
    ;   must_be_list(List, random_select/5)
    ).

% random_permutation(+List, -Permutation, +State0, -State): the elements of a list in another order, each order as likely.
% random_permutation(-List, +Permutation, +State0, -State): the same the other way round.
random_permutation(List, Permutation, State0, State) :-
    must_be_integer(State0, random_permutation/4),
    (   is_closed(List)
    ->  permuted(List, Permutation, State0, State)
    ;   is_closed(Permutation)
    ->  permuted(Permutation, List, State0, State)
    ;   must_be_list(List, random_permutation/4)
    ).

% permuted(List, Permutation, State0, State): the states themselves are the keys, since no two of them are equal.
permuted(List, Permutation, State0, State) :-
    keyed(List, Keyed, State0, Next),
    keysort(Keyed, Sorted),
    pairs_values(Sorted, Permutation),
    State = Next.

keyed([], [], State, State).
keyed([Element|List], [State1-Element|Keyed], State0, State) :-
    step(State0, State1),
    keyed(List, Keyed, State1, State).

% random_subseq(+List, -Part, -Others, +State0, -State): each element of a list goes to Part or to Others, both as likely, in its order.
% random_subseq(-List, +Part, +Others, +State0, -State): List has the elements of both in their orders; fails where its choices don't fit.
random_subseq(List, Part, Others, State0, State) :-
    must_be_integer(State0, random_subseq/5),
    divided(List, Part, Others, State0, State).

divided([], [], [], State, State).
divided([Element|List], Part, Others, State0, State) :-
    step(State0, State1),
    Bit is State1 >> 47,
    divided(Bit, Element, List, Part, Others, State1, State).

divided(0, Element, List, Part, [Element|Others], State0, State) :- divided(List, Part, Others, State0, State).
divided(1, Element, List, [Element|Part], Others, State0, State) :- divided(List, Part, Others, State0, State).

% random_perm2(?A, ?B, ?X, ?Y, +State0, -State): X and Y are A and B in one of both orders.
random_perm2(A, B, X, Y, State0, State) :-
    must_be_integer(State0, random_perm2/6),
    step(State0, State),
    Bit is State >> 47,
    ordered(Bit, A, B, X, Y).

ordered(0, A, B, A, B).
ordered(1, A, B, B, A).

% randset(+Count, +Last, -Set, +State0, -State): Count different integers from 1 to Last in ascending order; fails where there are less.
randset(Count, Last, Set, State0, State) :-
    must_be_count(Count, randset/5),
    must_be_integer(Last, randset/5),
    must_be_integer(State0, randset/5),
    Count =< Last,
    chosen(Count, Last, [], Set, State0, State).

% chosen(Count, Last, Set0, Set, State0, State): Count integers from 1 to Last stand before Set0.
chosen(0, _, Set, Set, State, State) :- !.
chosen(Count, Last, Set0, Set, State0, State) :-
    below(Last, Number, State0, State1),
    Below is Last - 1,
    (   Number < Count
    ->  Others is Count - 1,
        chosen(Others, Below, [Last|Set0], Set, State1, State)
    ;   chosen(Count, Below, Set0, Set, State1, State)
    ).

% randseq(+Count, +Last, -List, +State0, -State): the same in any order.
randseq(Count, Last, List, State0, State) :-
    must_be_count(Count, randseq/5),
    must_be_integer(Last, randseq/5),
    must_be_integer(State0, randseq/5),
    Count =< Last,
    chosen(Count, Last, [], Set, State0, State1),
    permuted(Set, List, State1, State).

% random_numlist(+Part, +Whole, +Low, +High, -List, +State0, -State): integers from Low to High in ascending order, each of them taken with
% the probability Part / Whole.
random_numlist(Part, Whole, Low, High, List, State0, State) :-
    must_be_part(Part, Whole, random_numlist/7),
    must_be_integer(Low, random_numlist/7),
    must_be_integer(High, random_numlist/7),
    must_be_integer(State0, random_numlist/7),
    taken(Low, High, Part, Whole, List, State0, State).

taken(Low, High, Part, Whole, List, State0, State) :-
    (   Low > High
    ->  List = [],
        State = State0
    ;   chance(Part, Whole, Answer, State0, State1),
        taken(Answer, Low, List, Others),
        taken_after(Low, High, Part, Whole, Others, State1, State)
    ).

taken(true, Number, [Number|Others], Others).
taken(false, _, Others, Others).

taken_after(Low, High, Part, Whole, List, State0, State) :-
    (   Low =:= High
    ->  List = [],
        State = State0
    ;   Next is Low + 1,
        taken(Next, High, Part, Whole, List, State0, State)
    ).

must_be_integer(Term, Caller) :-
    (   integer(Term)
    ->  true
    ;   var(Term)
    ->  throw(error(instantiation_error, Caller))
    ;   throw(error(type_error(integer, Term), Caller))
    ).

must_be_count(Term, Caller) :-
    (   var(Term)
    ->  throw(error(instantiation_error, Caller))
    ;   integer(Term),
        Term >= 0
    ->  true
    ;   throw(error(type_error(nonneg, Term), Caller))
    ).

must_be_positive(Count, Caller) :-
    (   Count > 0
    ->  true
    ;   throw(error(domain_error(not_less_than_one, Count), Caller))
    ).

must_be_part(Part, Whole, Caller) :-
    must_be_count(Part, Caller),
    must_be_count(Whole, Caller),
    (   Part =< Whole
    ->  must_be_positive(Whole, Caller)
    ;   throw(error(domain_error(not_less_than_zero, Whole-Part), Caller))
    ).

is_closed(List) :- var(List), !, fail.
is_closed([]).
is_closed([_|Tail]) :- is_closed(Tail).

must_be_list(Term, Caller) :- must_be_list(Term, Term, Caller).

must_be_list(Tail, _, Caller) :- var(Tail), !, throw(error(instantiation_error, Caller)).
must_be_list([], _, _) :- !.
must_be_list([_|Tail], Term, Caller) :- !, must_be_list(Tail, Term, Caller).
must_be_list(_, Term, Caller) :- throw(error(type_error(list, Term), Caller)).
:- end_body(random).
