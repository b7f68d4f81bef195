:- module colouring.
:- import_module int, list.

% A search that fails often: the states of Germany are coloured, no two neighbours alike, and one colour is scarce.

:- type state
    --->    schleswig_holstein ; hamburg ; bremen ; lower_saxony ; mecklenburg ; berlin ; brandenburg ; saxony_anhalt
    ;       north_rhine ; hesse ; thuringia ; saxony ; rhineland ; saarland ; baden ; bavaria.

:- type colour ---> red ; green ; blue ; yellow.

:- type coloured ---> coloured(state, colour).

:- pred maps(int::in, list(coloured)::out) is nondet.
maps(Scarce, Map) :- states(States), colouring(States, Scarce, [], Map).

% At most Scarce states are yellow.
:- pred colouring(list(state)::in, int::in, list(coloured)::in, list(coloured)::out) is nondet.
colouring([], _, Map, Map).
colouring([State | States], Scarce, Before, Map) :-
    colour(Colour),
    ( if Colour = yellow then
        Scarce > 0,
        Left = Scarce - 1
    else
        Left = Scarce
    ),
    not conflicts(State, Colour, Before),
    colouring(States, Left, [coloured(State, Colour) | Before], Map).

:- pred conflicts(state::in, colour::in, list(coloured)::in) is semidet.
conflicts(State, Colour, [coloured(Other, Same) | Others]) :-
    (
        Same = Colour,
        neighbours(State, Other)
    ;
        conflicts(State, Colour, Others)
    ).

:- pred neighbours(state::in, state::in) is semidet.
neighbours(A, B) :-
    (
        border(A, B)
    ;
        border(B, A)
    ).

:- pred colour(colour::out) is multi.
colour(red).
colour(green).
colour(blue).
colour(yellow).

:- pred states(list(state)::out) is det.
states([
    schleswig_holstein, hamburg, bremen, lower_saxony, mecklenburg, berlin, brandenburg, saxony_anhalt,
    north_rhine, hesse, thuringia, saxony, rhineland, saarland, baden, bavaria
]).

:- pred border(state::in, state::in) is semidet.
border(schleswig_holstein, hamburg).
border(schleswig_holstein, lower_saxony).
border(schleswig_holstein, mecklenburg).
border(hamburg, lower_saxony).
border(bremen, lower_saxony).
border(lower_saxony, mecklenburg).
border(lower_saxony, brandenburg).
border(lower_saxony, saxony_anhalt).
border(lower_saxony, north_rhine).
border(lower_saxony, hesse).
border(lower_saxony, thuringia).
border(mecklenburg, brandenburg).
border(berlin, brandenburg).
border(brandenburg, saxony_anhalt).
border(brandenburg, saxony).
border(saxony_anhalt, thuringia).
border(saxony_anhalt, saxony).
border(north_rhine, hesse).
border(north_rhine, rhineland).
border(hesse, thuringia).
border(hesse, rhineland).
border(hesse, baden).
border(hesse, bavaria).
border(thuringia, saxony).
border(thuringia, bavaria).
border(saxony, bavaria).
border(rhineland, saarland).
border(rhineland, baden).
border(baden, bavaria).
