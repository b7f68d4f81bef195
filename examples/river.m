:- module river.
:- import_module int, list.

% A farmer brings a wolf, a goat and a cabbage across a river, in a boat that carries one of them. Left alone, the wolf eats
% the goat and the goat eats the cabbage.
:- type bank ---> near ; far.
:- type state ---> state(bank, bank, bank, bank).
:- type crossing ---> alone ; wolf ; goat ; cabbage.

:- pred opposite(bank, bank).
:- mode opposite(in, out) is det.
:- mode opposite(out, in) is det.
opposite(near, far).
opposite(far, near).

% Farmer, wolf, goat and cabbage, in this order.
:- pred cross(state::in, crossing::out, state::out) is multi.
cross(state(F, W, G, C), alone, state(To, W, G, C)) :- opposite(F, To).
cross(state(F, F, G, C), wolf, state(To, To, G, C)) :- opposite(F, To).
cross(state(F, W, F, C), goat, state(To, W, To, C)) :- opposite(F, To).
cross(state(F, W, G, F), cabbage, state(To, W, G, To)) :- opposite(F, To).

:- pred unsafe(state::in) is semidet.
unsafe(state(Farmer, Wolf, Goat, Cabbage)) :-
    opposite(Farmer, Alone),
    Goat = Alone,
    (
        Wolf = Alone
    ;
        Cabbage = Alone
    ).

% The crossings from one state to another, in at most so many and through no state twice.
:- pred plan(state::in, state::in, list(state)::in, int::in, list(crossing)::out) is nondet.
plan(From, To, Seen, Most, Crossings) :-
    ( if From = To then
        Crossings = []
    else
        Most > 0,
        cross(From, Crossing, Next),
        not unsafe(Next),
        not member(Next, Seen),
        plan(Next, To, [Next | Seen], Most - 1, Others),
        Crossings = [Crossing | Others]
    ).

:- pred solution(int::in, list(crossing)::out) is nondet.
solution(Most, Crossings) :-
    Start = state(near, near, near, near),
    plan(Start, state(far, far, far, far), [Start], Most, Crossings).
