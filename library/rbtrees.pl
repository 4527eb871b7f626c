% rbtrees: tables from keys to values as red-black trees, over the standard order of keys.
%
% A tree is rbtree(Node). A node is empty, or black(Left, Key, Value, Right), or red(Left, Key, Value, Right). A red node has no red
% node directly below it, the root is black or empty, and each way down from a node passes as many black nodes.
% Keys are compared and not unified; a key that is bound further after it was put may not be found again.

:- module(rbtrees).
:- export([rb_new/1, rb_empty/1, is_rbtree/1, rb_size/2, rb_lookup/3, rb_in/3]).
:- export([rb_min/3, rb_max/3, rb_next/4, rb_previous/4, rb_visit/2, rb_keys/2]).
:- export([rb_insert/4, rb_insert_new/4, rb_update/4, rb_update/5, rb_apply/4]).
:- export([rb_delete/3, rb_delete/4, rb_del_min/4, rb_del_max/4]).
:- export([rb_map/2, rb_map/3, rb_partial_map/4, rb_fold/4, rb_clone/3, list_to_rbtree/2, ord_list_to_rbtree/2]).
:- metapredicate([rb_apply(*, *, :, *), rb_map(*, :), rb_map(*, :, *), rb_partial_map(*, *, :, *), rb_fold(:, *, *, *)]).
:- end_module(rbtrees).

:- body(rbtrees).
:- import(lists, [length/2, sort/2]).

% rb_new(-Tree): the tree without keys, as rb_empty/1.
rb_new(rbtree(empty)).

% rb_empty(?Tree): the tree without keys.
rb_empty(rbtree(empty)).

% is_rbtree(@Term): Term is a tree with keys in ascending order and colours as they should be. Nothing is bound.
is_rbtree(Term) :-
    nonvar(Term),
    Term = rbtree(Root),
    nonvar(Root),
    colour(Root, black),
    black_height(Root, none, none, _).

colour(empty, black).
colour(black(_, _, _, _), black).
colour(red(_, _, _, _), red).

% black_height(Node, Below, Above, Height): keys stand between Below and Above, which are none or key(Key); Height black nodes are
% on each way down.
black_height(Node, _, _, _) :- var(Node), !, fail.
black_height(empty, _, _, 0).
black_height(black(Left, Key, _, Right), Below, Above, Height) :-
    sides_height(Left, Key, Right, Below, Above, SidesHeight),
    Height is SidesHeight + 1.
black_height(red(Left, Key, _, Right), Below, Above, Height) :-
    sides_height(Left, Key, Right, Below, Above, Height),
    colour(Left, black),
    colour(Right, black).

sides_height(Left, Key, Right, Below, Above, Height) :-
    is_above(Below, Key),
    is_below(Above, Key),
    black_height(Left, Below, key(Key), Height),
    black_height(Right, key(Key), Above, RightHeight),
    Height =:= RightHeight.

is_above(none, _).
is_above(key(Low), Key) :- Low @< Key.

is_below(none, _).
is_below(key(High), Key) :- Key @< High.

% rb_size(+Tree, -Size): how many keys there are.
rb_size(Tree, Size) :- root(Tree, Root, rb_size/2), counted(Root, 0, Count), Size = Count.

counted(empty, Count, Count).
counted(black(Left, _, _, Right), Count0, Count) :- counted_sides(Left, Right, Count0, Count).
counted(red(Left, _, _, Right), Count0, Count) :- counted_sides(Left, Right, Count0, Count).

counted_sides(Left, Right, Count0, Count) :-
    Count1 is Count0 + 1,
    counted(Left, Count1, Count2),
    counted(Right, Count2, Count).

% rb_lookup(+Key, ?Value, +Tree): the value of a key; fails where the key isn't there.
rb_lookup(Key, Value, Tree) :- root(Tree, Root, rb_lookup/3), value_at(Root, Key, Value).

value_at(black(Left, Here, Found, Right), Key, Value) :-
    (   Key @< Here
    ->  value_at(Left, Key, Value)
    ;   Key @> Here
    ->  value_at(Right, Key, Value)
    ;   Value = Found
    ).
value_at(red(Left, Here, Found, Right), Key, Value) :-
    (   Key @< Here
    ->  value_at(Left, Key, Value)
    ;   Key @> Here
    ->  value_at(Right, Key, Value)
    ;   Value = Found
    ).

% rb_in(?Key, ?Value, +Tree): each key that unifies with Key, with its value, in ascending order.
rb_in(Key, Value, Tree) :- root(Tree, Root, rb_in/3), one_of(Root, Key, Value).

one_of(black(Left, Here, Found, Right), Key, Value) :- one_of(Left, Here, Found, Right, Key, Value).
one_of(red(Left, Here, Found, Right), Key, Value) :- one_of(Left, Here, Found, Right, Key, Value).

one_of(Left, _, _, _, Key, Value) :- one_of(Left, Key, Value).
one_of(_, Key, Value, _, Key, Value).
one_of(_, _, _, Right, Key, Value) :- one_of(Right, Key, Value).

% rb_min(+Tree, ?Key, ?Value): the least key and its value; fails where there is none.
rb_min(Tree, Key, Value) :- root(Tree, Root, rb_min/3), least(Root, Key, Value).

least(black(Left, Here, Found, _), Key, Value) :- least(Left, Here, Found, Key, Value).
least(red(Left, Here, Found, _), Key, Value) :- least(Left, Here, Found, Key, Value).

least(empty, Key, Value, Key, Value).
least(black(Left, Here, Found, _), _, _, Key, Value) :- least(Left, Here, Found, Key, Value).
least(red(Left, Here, Found, _), _, _, Key, Value) :- least(Left, Here, Found, Key, Value).

% rb_max(+Tree, ?Key, ?Value): the greatest key and its value; fails where there is none.
rb_max(Tree, Key, Value) :- root(Tree, Root, rb_max/3), greatest(Root, Key, Value).

greatest(black(_, Here, Found, Right), Key, Value) :- greatest(Right, Here, Found, Key, Value).
greatest(red(_, Here, Found, Right), Key, Value) :- greatest(Right, Here, Found, Key, Value).

greatest(empty, Key, Value, Key, Value).
greatest(black(_, Here, Found, Right), _, _, Key, Value) :- greatest(Right, Here, Found, Key, Value).
greatest(red(_, Here, Found, Right), _, _, Key, Value) :- greatest(Right, Here, Found, Key, Value).

% rb_next(+Tree, +Key, ?Next, ?Value): the key after Key and its value; fails where Key isn't there or is the last.
rb_next(Tree, Key, Next, Value) :- root(Tree, Root, rb_next/4), after(Root, Key, none, Next, Value).

% after(Node, Key, Candidate, Next, Value): Candidate is none, or pair(Key, Value) of the last node whose left side was taken.
after(black(Left, Here, Found, Right), Key, Candidate, Next, Value) :-
    compare(Order, Key, Here),
    after_towards(Order, Left, Here, Found, Right, Key, Candidate, Next, Value).
after(red(Left, Here, Found, Right), Key, Candidate, Next, Value) :-
    compare(Order, Key, Here),
    after_towards(Order, Left, Here, Found, Right, Key, Candidate, Next, Value).

after_towards(=, _, _, _, Right, _, Candidate, Next, Value) :- least_or(Right, Candidate, Next, Value).
after_towards(<, Left, Here, Found, _, Key, _, Next, Value) :- after(Left, Key, pair(Here, Found), Next, Value).
after_towards(>, _, _, _, Right, Key, Candidate, Next, Value) :- after(Right, Key, Candidate, Next, Value).

least_or(empty, pair(Key, Value), Key, Value).
least_or(black(Left, Here, Found, _), _, Key, Value) :- least(Left, Here, Found, Key, Value).
least_or(red(Left, Here, Found, _), _, Key, Value) :- least(Left, Here, Found, Key, Value).

% rb_previous(+Tree, +Key, ?Previous, ?Value): the key before Key and its value; fails where Key isn't there or is the first.
rb_previous(Tree, Key, Previous, Value) :- root(Tree, Root, rb_previous/4), before(Root, Key, none, Previous, Value).

before(black(Left, Here, Found, Right), Key, Candidate, Previous, Value) :-
    compare(Order, Key, Here),
    before_towards(Order, Left, Here, Found, Right, Key, Candidate, Previous, Value).
before(red(Left, Here, Found, Right), Key, Candidate, Previous, Value) :-
    compare(Order, Key, Here),
    before_towards(Order, Left, Here, Found, Right, Key, Candidate, Previous, Value).

before_towards(=, Left, _, _, _, _, Candidate, Previous, Value) :- greatest_or(Left, Candidate, Previous, Value).
before_towards(<, Left, _, _, _, Key, Candidate, Previous, Value) :- before(Left, Key, Candidate, Previous, Value).
before_towards(>, _, Here, Found, Right, Key, _, Previous, Value) :- before(Right, Key, pair(Here, Found), Previous, Value).

greatest_or(empty, pair(Key, Value), Key, Value).
greatest_or(black(_, Here, Found, Right), _, Key, Value) :- greatest(Right, Here, Found, Key, Value).
greatest_or(red(_, Here, Found, Right), _, Key, Value) :- greatest(Right, Here, Found, Key, Value).

% rb_visit(+Tree, -Pairs): the pairs Key-Value in ascending order of keys.
rb_visit(Tree, Pairs) :- root(Tree, Root, rb_visit/2), pairs_before(Root, Pairs, []).

pairs_before(empty, Pairs, Pairs).
pairs_before(black(Left, Key, Value, Right), Pairs, Rest) :-
    pairs_before(Left, Pairs, [Key-Value|More]),
    pairs_before(Right, More, Rest).
pairs_before(red(Left, Key, Value, Right), Pairs, Rest) :-
    pairs_before(Left, Pairs, [Key-Value|More]),
    pairs_before(Right, More, Rest).

% rb_keys(+Tree, -Keys): the keys in ascending order.
rb_keys(Tree, Keys) :- root(Tree, Root, rb_keys/2), keys_before(Root, Keys, []).

keys_before(empty, Keys, Keys).
keys_before(black(Left, Key, _, Right), Keys, Rest) :-
    keys_before(Left, Keys, [Key|More]),
    keys_before(Right, More, Rest).
keys_before(red(Left, Key, _, Right), Keys, Rest) :-
    keys_before(Left, Keys, [Key|More]),
    keys_before(Right, More, Rest).

% rb_insert(+Tree0, +Key, ?Value, -Tree): Tree is Tree0 with Value for Key, whether Key was there or not.
rb_insert(Tree0, Key, Value, rbtree(Root)) :-
    root(Tree0, Root0, rb_insert/4),
    put(Root0, Key, Value, Node),
    blackened(Node, Root).

blackened(black(Left, Key, Value, Right), black(Left, Key, Value, Right)).
blackened(red(Left, Key, Value, Right), black(Left, Key, Value, Right)).

% put(Node0, Key, Value, Node): a red node Node may have one red node directly below it.
put(empty, Key, Value, red(empty, Key, Value, empty)).
put(black(Left, Here, Found, Right), Key, Value, Node) :-
    (   Key @< Here
    ->  put(Left, Key, Value, NewLeft),
        left_mended(NewLeft, Here, Found, Right, Node)
    ;   Key @> Here
    ->  put(Right, Key, Value, NewRight),
        right_mended(NewRight, Left, Here, Found, Node)
    ;   Node = black(Left, Here, Value, Right)
    ).
put(red(Left, Here, Found, Right), Key, Value, Node) :-
    (   Key @< Here
    ->  Node = red(NewLeft, Here, Found, Right),
        put(Left, Key, Value, NewLeft)
    ;   Key @> Here
    ->  Node = red(Left, Here, Found, NewRight),
        put(Right, Key, Value, NewRight)
    ;   Node = red(Left, Here, Value, Right)
    ).

% left_mended(Left, Key, Value, Right, Node): a black node, or a red one in its place where Left has a red node below a red one.
left_mended(black(Low, LeftKey, LeftValue, High), Key, Value, Right, black(black(Low, LeftKey, LeftValue, High), Key, Value, Right)).
left_mended(red(Low, LeftKey, LeftValue, High), Key, Value, Right, Node) :-
    left_outer(Low, LeftKey, LeftValue, High, Key, Value, Right, Node).

left_outer(red(Low, LowKey, LowValue, Inner), LeftKey, LeftValue, High, Key, Value, Right,
           red(black(Low, LowKey, LowValue, Inner), LeftKey, LeftValue, black(High, Key, Value, Right))).
left_outer(black(Low, LowKey, LowValue, Inner), LeftKey, LeftValue, High, Key, Value, Right, Node) :-
    left_inner(High, black(Low, LowKey, LowValue, Inner), LeftKey, LeftValue, Key, Value, Right, Node).
left_outer(empty, LeftKey, LeftValue, High, Key, Value, Right, Node) :-
    left_inner(High, empty, LeftKey, LeftValue, Key, Value, Right, Node).

left_inner(red(Inner, HighKey, HighValue, High), Low, LeftKey, LeftValue, Key, Value, Right,
           red(black(Low, LeftKey, LeftValue, Inner), HighKey, HighValue, black(High, Key, Value, Right))).
left_inner(black(Inner, HighKey, HighValue, High), Low, LeftKey, LeftValue, Key, Value, Right,
           black(red(Low, LeftKey, LeftValue, black(Inner, HighKey, HighValue, High)), Key, Value, Right)).
left_inner(empty, Low, LeftKey, LeftValue, Key, Value, Right, black(red(Low, LeftKey, LeftValue, empty), Key, Value, Right)).

% right_mended(Right, Left, Key, Value, Node): the same for the right side.
right_mended(black(Low, RightKey, RightValue, High), Left, Key, Value,
             black(Left, Key, Value, black(Low, RightKey, RightValue, High))).
right_mended(red(Low, RightKey, RightValue, High), Left, Key, Value, Node) :-
    right_outer(High, RightKey, RightValue, Low, Left, Key, Value, Node).

right_outer(red(Inner, HighKey, HighValue, High), RightKey, RightValue, Low, Left, Key, Value,
            red(black(Left, Key, Value, Low), RightKey, RightValue, black(Inner, HighKey, HighValue, High))).
right_outer(black(Inner, HighKey, HighValue, High), RightKey, RightValue, Low, Left, Key, Value, Node) :-
    right_inner(Low, black(Inner, HighKey, HighValue, High), RightKey, RightValue, Left, Key, Value, Node).
right_outer(empty, RightKey, RightValue, Low, Left, Key, Value, Node) :-
    right_inner(Low, empty, RightKey, RightValue, Left, Key, Value, Node).

right_inner(red(Low, LowKey, LowValue, Inner), High, RightKey, RightValue, Left, Key, Value,
            red(black(Left, Key, Value, Low), LowKey, LowValue, black(Inner, RightKey, RightValue, High))).
right_inner(black(Low, LowKey, LowValue, Inner), High, RightKey, RightValue, Left, Key, Value,
            black(Left, Key, Value, red(black(Low, LowKey, LowValue, Inner), RightKey, RightValue, High))).
right_inner(empty, High, RightKey, RightValue, Left, Key, Value, black(Left, Key, Value, red(empty, RightKey, RightValue, High))).

% rb_insert_new(+Tree0, +Key, ?Value, -Tree): the same; fails where Key is there.
rb_insert_new(Tree0, Key, Value, Tree) :-
    root(Tree0, Root0, rb_insert_new/4),
    \+ value_at(Root0, Key, _),
    rb_insert(Tree0, Key, Value, Tree).

% rb_update(+Tree0, +Key, ?Value, -Tree): the same; fails where Key isn't there.
rb_update(Tree0, Key, Value, rbtree(Root)) :-
    root(Tree0, Root0, rb_update/4),
    exchanged(Root0, Key, _, Value, Root).

% rb_update(+Tree0, +Key, ?Value0, ?Value, -Tree): the same; Key has Value0 in Tree0.
rb_update(Tree0, Key, Value0, Value, rbtree(Root)) :-
    root(Tree0, Root0, rb_update/5),
    exchanged(Root0, Key, Value0, Value, Root).

exchanged(black(Left, Here, Found, Right), Key, Value0, Value, Node) :-
    compare(Order, Key, Here),
    exchanged_towards(Order, black, Left, Here, Found, Right, Key, Value0, Value, Node).
exchanged(red(Left, Here, Found, Right), Key, Value0, Value, Node) :-
    compare(Order, Key, Here),
    exchanged_towards(Order, red, Left, Here, Found, Right, Key, Value0, Value, Node).

exchanged_towards(=, Colour, Left, Here, Value0, Right, _, Value0, Value, Node) :- node(Colour, Left, Here, Value, Right, Node).
exchanged_towards(<, Colour, Left, Here, Found, Right, Key, Value0, Value, Node) :-
    node(Colour, NewLeft, Here, Found, Right, Node),
    exchanged(Left, Key, Value0, Value, NewLeft).
exchanged_towards(>, Colour, Left, Here, Found, Right, Key, Value0, Value, Node) :-
    node(Colour, Left, Here, Found, NewRight, Node),
    exchanged(Right, Key, Value0, Value, NewRight).

node(black, Left, Key, Value, Right, black(Left, Key, Value, Right)).
node(red, Left, Key, Value, Right, red(Left, Key, Value, Right)).

% rb_apply(+Tree0, +Key, +Goal, -Tree): call(Goal, Value0, Value) is true of the values that Key has in Tree0 and Tree, which are
% the same elsewhere; fails where Key isn't there.
rb_apply(Tree0, Key, Goal, rbtree(Root)) :-
    root(Tree0, Root0, rb_apply/4),
    exchanged(Root0, Key, Value0, Value, Root),
    call(Goal, Value0, Value).

% rb_delete(+Tree0, +Key, -Tree): Tree is Tree0 without Key; fails where Key isn't there.
rb_delete(Tree0, Key, rbtree(Root)) :- root(Tree0, Root0, rb_delete/3), removed(Root0, Key, _, Root, _).

% rb_delete(+Tree0, +Key, ?Value, -Tree): the same; Key had Value.
rb_delete(Tree0, Key, Value, rbtree(Root)) :- root(Tree0, Root0, rb_delete/4), removed(Root0, Key, Value, Root, _).

% removed(Node0, Key, Value, Node, Change): Change tells whether ways down Node pass one black node less (shorter), or as many (same).
removed(black(Left, Here, Found, Right), Key, Value, Node, Change) :-
    compare(Order, Key, Here),
    removed_towards(Order, black, Left, Here, Found, Right, Key, Value, Node, Change).
removed(red(Left, Here, Found, Right), Key, Value, Node, Change) :-
    compare(Order, Key, Here),
    removed_towards(Order, red, Left, Here, Found, Right, Key, Value, Node, Change).

removed_towards(=, Colour, Left, _, Value, Right, _, Value, Node, Change) :- joined(Right, Colour, Left, Node, Change).
removed_towards(<, Colour, Left, Here, Found, Right, Key, Value, Node, Change) :-
    removed(Left, Key, Value, NewLeft, LeftChange),
    left_removed(LeftChange, Colour, NewLeft, Here, Found, Right, Node, Change).
removed_towards(>, Colour, Left, Here, Found, Right, Key, Value, Node, Change) :-
    removed(Right, Key, Value, NewRight, RightChange),
    right_removed(RightChange, Colour, Left, Here, Found, NewRight, Node, Change).

% joined(Right, Colour, Left, Node, Change): the two sides of a node of this colour without the node.
joined(empty, Colour, Left, Node, Change) :- lifted(Left, Colour, Node, Change).
joined(black(Low, RightKey, RightValue, High), Colour, Left, Node, Change) :-
    least_removed(black(Low, RightKey, RightValue, High), Key, Value, NewRight, RightChange),
    right_removed(RightChange, Colour, Left, Key, Value, NewRight, Node, Change).
joined(red(Low, RightKey, RightValue, High), Colour, Left, Node, Change) :-
    least_removed(red(Low, RightKey, RightValue, High), Key, Value, NewRight, RightChange),
    right_removed(RightChange, Colour, Left, Key, Value, NewRight, Node, Change).

% lifted(Child, Colour, Node, Change): a node of this colour goes, and the only child that it may have takes its place.
lifted(empty, Colour, empty, Change) :- without(Colour, Change).
lifted(red(Left, Key, Value, Right), _, black(Left, Key, Value, Right), same).

without(black, shorter).
without(red, same).

% rb_del_min(+Tree0, ?Key, ?Value, -Tree): Tree is Tree0 without its least key, Key, which had Value; fails where there is none.
rb_del_min(Tree0, Key, Value, rbtree(Root)) :- root(Tree0, Root0, rb_del_min/4), least_removed(Root0, Key, Value, Root, _).

least_removed(black(Left, Here, Found, Right), Key, Value, Node, Change) :-
    least_removed(Left, black, Here, Found, Right, Key, Value, Node, Change).
least_removed(red(Left, Here, Found, Right), Key, Value, Node, Change) :-
    least_removed(Left, red, Here, Found, Right, Key, Value, Node, Change).

least_removed(empty, Colour, Key, Value, Right, Key, Value, Node, Change) :- lifted(Right, Colour, Node, Change).
least_removed(black(Low, LeftKey, LeftValue, High), Colour, Here, Found, Right, Key, Value, Node, Change) :-
    least_removed(Low, black, LeftKey, LeftValue, High, Key, Value, NewLeft, LeftChange),
    left_removed(LeftChange, Colour, NewLeft, Here, Found, Right, Node, Change).
least_removed(red(Low, LeftKey, LeftValue, High), Colour, Here, Found, Right, Key, Value, Node, Change) :-
    least_removed(Low, red, LeftKey, LeftValue, High, Key, Value, NewLeft, LeftChange),
    left_removed(LeftChange, Colour, NewLeft, Here, Found, Right, Node, Change).

% rb_del_max(+Tree0, ?Key, ?Value, -Tree): the same of the greatest key.
rb_del_max(Tree0, Key, Value, rbtree(Root)) :- root(Tree0, Root0, rb_del_max/4), greatest_removed(Root0, Key, Value, Root, _).

greatest_removed(black(Left, Here, Found, Right), Key, Value, Node, Change) :-
    greatest_removed(Right, black, Left, Here, Found, Key, Value, Node, Change).
greatest_removed(red(Left, Here, Found, Right), Key, Value, Node, Change) :-
    greatest_removed(Right, red, Left, Here, Found, Key, Value, Node, Change).

greatest_removed(empty, Colour, Left, Key, Value, Key, Value, Node, Change) :- lifted(Left, Colour, Node, Change).
greatest_removed(black(Low, RightKey, RightValue, High), Colour, Left, Here, Found, Key, Value, Node, Change) :-
    greatest_removed(High, black, Low, RightKey, RightValue, Key, Value, NewRight, RightChange),
    right_removed(RightChange, Colour, Left, Here, Found, NewRight, Node, Change).
greatest_removed(red(Low, RightKey, RightValue, High), Colour, Left, Here, Found, Key, Value, Node, Change) :-
    greatest_removed(High, red, Low, RightKey, RightValue, Key, Value, NewRight, RightChange),
    right_removed(RightChange, Colour, Left, Here, Found, NewRight, Node, Change).

% left_removed(LeftChange, Colour, Left, Key, Value, Right, Node, Change): a node of this colour after its left side changed.
left_removed(same, Colour, Left, Key, Value, Right, Node, same) :- node(Colour, Left, Key, Value, Right, Node).
left_removed(shorter, Colour, Left, Key, Value, Right, Node, Change) :-
    left_short(Right, Colour, Left, Key, Value, Node, Change).

% left_short(Right, Colour, Left, Key, Value, Node, Change): ways down Left pass one black node less than those down Right.
left_short(red(Low, RightKey, RightValue, High), _, Left, Key, Value, black(NewLeft, RightKey, RightValue, High), same) :-
    left_short(Low, red, Left, Key, Value, NewLeft, _).
left_short(black(Low, RightKey, RightValue, High), Colour, Left, Key, Value, Node, Change) :-
    left_short_outer(High, Low, RightKey, RightValue, Colour, Left, Key, Value, Node, Change).

left_short_outer(red(Inner, HighKey, HighValue, High), Low, RightKey, RightValue, Colour, Left, Key, Value, Node, same) :-
    node(Colour, black(Left, Key, Value, Low), RightKey, RightValue, black(Inner, HighKey, HighValue, High), Node).
left_short_outer(black(Inner, HighKey, HighValue, High), Low, RightKey, RightValue, Colour, Left, Key, Value, Node, Change) :-
    left_short_inner(Low, RightKey, RightValue, black(Inner, HighKey, HighValue, High), Colour, Left, Key, Value, Node, Change).
left_short_outer(empty, Low, RightKey, RightValue, Colour, Left, Key, Value, Node, Change) :-
    left_short_inner(Low, RightKey, RightValue, empty, Colour, Left, Key, Value, Node, Change).

left_short_inner(red(Low, LowKey, LowValue, Inner), RightKey, RightValue, High, Colour, Left, Key, Value, Node, same) :-
    node(Colour, black(Left, Key, Value, Low), LowKey, LowValue, black(Inner, RightKey, RightValue, High), Node).
left_short_inner(black(Low, LowKey, LowValue, Inner), RightKey, RightValue, High, Colour, Left, Key, Value,
                 black(Left, Key, Value, red(black(Low, LowKey, LowValue, Inner), RightKey, RightValue, High)), Change) :-
    without(Colour, Change).
left_short_inner(empty, RightKey, RightValue, High, Colour, Left, Key, Value,
                 black(Left, Key, Value, red(empty, RightKey, RightValue, High)), Change) :-
    without(Colour, Change).

% right_removed(RightChange, Colour, Left, Key, Value, Right, Node, Change): the same after its right side changed.
right_removed(same, Colour, Left, Key, Value, Right, Node, same) :- node(Colour, Left, Key, Value, Right, Node).
right_removed(shorter, Colour, Left, Key, Value, Right, Node, Change) :-
    right_short(Left, Colour, Right, Key, Value, Node, Change).

right_short(red(Low, LeftKey, LeftValue, High), _, Right, Key, Value, black(Low, LeftKey, LeftValue, NewRight), same) :-
    right_short(High, red, Right, Key, Value, NewRight, _).
right_short(black(Low, LeftKey, LeftValue, High), Colour, Right, Key, Value, Node, Change) :-
    right_short_outer(Low, LeftKey, LeftValue, High, Colour, Right, Key, Value, Node, Change).

right_short_outer(red(Low, LowKey, LowValue, Inner), LeftKey, LeftValue, High, Colour, Right, Key, Value, Node, same) :-
    node(Colour, black(Low, LowKey, LowValue, Inner), LeftKey, LeftValue, black(High, Key, Value, Right), Node).
right_short_outer(black(Low, LowKey, LowValue, Inner), LeftKey, LeftValue, High, Colour, Right, Key, Value, Node, Change) :-
    right_short_inner(High, black(Low, LowKey, LowValue, Inner), LeftKey, LeftValue, Colour, Right, Key, Value, Node, Change).
right_short_outer(empty, LeftKey, LeftValue, High, Colour, Right, Key, Value, Node, Change) :-
    right_short_inner(High, empty, LeftKey, LeftValue, Colour, Right, Key, Value, Node, Change).

right_short_inner(red(Inner, HighKey, HighValue, High), Low, LeftKey, LeftValue, Colour, Right, Key, Value, Node, same) :-
    node(Colour, black(Low, LeftKey, LeftValue, Inner), HighKey, HighValue, black(High, Key, Value, Right), Node).
right_short_inner(black(Inner, HighKey, HighValue, High), Low, LeftKey, LeftValue, Colour, Right, Key, Value,
                  black(red(Low, LeftKey, LeftValue, black(Inner, HighKey, HighValue, High)), Key, Value, Right), Change) :-
    without(Colour, Change).
right_short_inner(empty, Low, LeftKey, LeftValue, Colour, Right, Key, Value,
                  black(red(Low, LeftKey, LeftValue, empty), Key, Value, Right), Change) :-
    without(Colour, Change).

% rb_map(+Tree, +Goal): call(Goal, Value) is true for each value, in ascending order of keys.
rb_map(Tree, Goal) :- root(Tree, Root, rb_map/2), each_value(Root, Goal).

each_value(empty, _).
each_value(black(Left, _, Value, Right), Goal) :- each_value(Left, Value, Right, Goal).
each_value(red(Left, _, Value, Right), Goal) :- each_value(Left, Value, Right, Goal).

each_value(Left, Value, Right, Goal) :-
    each_value(Left, Goal),
    call(Goal, Value),
    each_value(Right, Goal).

% rb_map(+Tree0, +Goal, -Tree): the keys of both are the same, and call(Goal, Value0, Value) is true for their values.
rb_map(Tree0, Goal, rbtree(Root)) :- root(Tree0, Root0, rb_map/3), each_pair(Root0, Goal, Root).

each_pair(empty, _, empty).
each_pair(black(Left0, Key, Value0, Right0), Goal, black(Left, Key, Value, Right)) :-
    each_pair(Left0, Goal, Left),
    call(Goal, Value0, Value),
    each_pair(Right0, Goal, Right).
each_pair(red(Left0, Key, Value0, Right0), Goal, red(Left, Key, Value, Right)) :-
    each_pair(Left0, Goal, Left),
    call(Goal, Value0, Value),
    each_pair(Right0, Goal, Right).

% rb_partial_map(+Tree0, +Keys, +Goal, -Tree): the same for the values of Keys, which are ascending keys of Tree0, and else it fails;
% a value for which Goal fails stays, as do those of other keys.
rb_partial_map(Tree0, Keys, Goal, rbtree(Root)) :-
    root(Tree0, Root0, rb_partial_map/4),
    some_pairs(Root0, Keys, [], Goal, Root).

% some_pairs(Node0, Keys, Rest, Goal, Node): Rest are the keys that aren't below Node0.
some_pairs(empty, Keys, Keys, _, empty).
some_pairs(black(Left0, Key, Value0, Right0), Keys, Rest, Goal, black(Left, Key, Value, Right)) :-
    some_pairs(Keys, Left0, Key, Value0, Right0, Rest, Goal, Left, Value, Right).
some_pairs(red(Left0, Key, Value0, Right0), Keys, Rest, Goal, red(Left, Key, Value, Right)) :-
    some_pairs(Keys, Left0, Key, Value0, Right0, Rest, Goal, Left, Value, Right).

some_pairs([], Left, _, Value, Right, [], _, Left, Value, Right).
some_pairs([First|Keys], Left0, Key, Value0, Right0, Rest, Goal, Left, Value, Right) :-
    some_pairs(Left0, [First|Keys], FromHere, Goal, Left),
    value_if_next(FromHere, Key, Value0, Goal, Value, AfterHere),
    some_pairs(Right0, AfterHere, Rest, Goal, Right).

value_if_next([], _, Value, _, Value, []).
value_if_next([First|Keys], Key, Value0, Goal, Value, Rest) :-
    (   First == Key
    ->  Rest = Keys,
        (   call(Goal, Value0, Value)
        ->  true
        ;   Value = Value0
        )
    ;   Rest = [First|Keys],
        Value = Value0
    ).

% rb_fold(+Goal, +Tree, +State0, -State): call(Goal, Key-Value, State1, State2) takes each pair in turn, from State0 to State.
rb_fold(Goal, Tree, State0, State) :- root(Tree, Root, rb_fold/4), folded(Root, Goal, State0, State).

folded(empty, _, State, State).
folded(black(Left, Key, Value, Right), Goal, State0, State) :- folded(Left, Key, Value, Right, Goal, State0, State).
folded(red(Left, Key, Value, Right), Goal, State0, State) :- folded(Left, Key, Value, Right, Goal, State0, State).

folded(Left, Key, Value, Right, Goal, State0, State) :-
    folded(Left, Goal, State0, State1),
    call(Goal, Key-Value, State1, State2),
    folded(Right, Goal, State2, State).

% rb_clone(+Tree0, -Tree, -Pairs): Tree has the keys of Tree0 and a new variable for each value; Pairs are its pairs, by ascending keys.
rb_clone(Tree0, rbtree(Root), Pairs) :- root(Tree0, Root0, rb_clone/3), cloned(Root0, Root, Pairs, []).

cloned(empty, empty, Pairs, Pairs).
cloned(black(Left0, Key, _, Right0), black(Left, Key, Value, Right), Pairs, Rest) :-
    cloned(Left0, Left, Pairs, [Key-Value|More]),
    cloned(Right0, Right, More, Rest).
cloned(red(Left0, Key, _, Right0), red(Left, Key, Value, Right), Pairs, Rest) :-
    cloned(Left0, Left, Pairs, [Key-Value|More]),
    cloned(Right0, Right, More, Rest).

% list_to_rbtree(+Pairs, -Tree): the tree of a list of pairs Key-Value without equal keys; that they are unequal isn't tested.
list_to_rbtree(Pairs, Tree) :- sort(Pairs, Sorted), ord_list_to_rbtree(Sorted, Tree).

% ord_list_to_rbtree(+Pairs, -Tree): the same of pairs that are in ascending order already, which isn't tested.
ord_list_to_rbtree(Pairs, rbtree(Root)) :-
    must_be_pairs(Pairs, Pairs),
    length(Pairs, Count),
    black_levels(Count, 0, Levels),
    built(Count, Levels, Pairs, [], Node),
    blackened_root(Node, Root).

must_be_pairs(Pairs, _) :- var(Pairs), !, throw(error(instantiation_error, ord_list_to_rbtree/2)).
must_be_pairs([], _) :- !.
must_be_pairs([Pair|Pairs], List) :- !, must_be_pair(Pair), must_be_pairs(Pairs, List).
must_be_pairs(_, List) :- throw(error(type_error(list, List), ord_list_to_rbtree/2)).

must_be_pair(Pair) :-
    (   var(Pair)
    ->  throw(error(instantiation_error, ord_list_to_rbtree/2))
    ;   Pair = _-_
    ->  true
    ;   throw(error(type_error(pair, Pair), ord_list_to_rbtree/2))
    ).

% black_levels(Count, Levels0, Levels): Levels is Levels0 and the number of levels that Count nodes fill, without the last one.
black_levels(Count, Levels0, Levels) :-
    (   Count =< 1
    ->  Levels = Levels0
    ;   Half is Count // 2,
        Levels1 is Levels0 + 1,
        black_levels(Half, Levels1, Levels)
    ).

% built(Count, Levels, Pairs, Rest, Node): the tree of the first Count pairs, black but for what is below so many levels, and the
% pairs that remain.
built(0, _, Pairs, Pairs, empty) :- !.
built(Count, Levels, Pairs, Rest, Node) :-
    LeftCount is (Count - 1) // 2,
    RightCount is Count - 1 - LeftCount,
    Below is Levels - 1,
    built(LeftCount, Below, Pairs, [Key-Value|Upper], Left),
    built(RightCount, Below, Upper, Rest, Right),
    level_colour(Levels, Colour),
    node(Colour, Left, Key, Value, Right, Node).

level_colour(0, red) :- !.
level_colour(_, black).

blackened_root(empty, empty).
blackened_root(black(Left, Key, Value, Right), black(Left, Key, Value, Right)).
blackened_root(red(Left, Key, Value, Right), black(Left, Key, Value, Right)).

% root(Tree, Root, Caller): the root of a tree, or an error.
root(Tree, Root, Caller) :-
    (   var(Tree)
    ->  throw(error(instantiation_error, Caller))
    ;   Tree = rbtree(Root)
    ->  true
    ;   throw(error(type_error(rbtree, Tree), Caller))
    ).
:- end_body(rbtrees).
