% A search that fails often: the states of Germany are coloured, no two neighbours alike, and one colour is scarce.

main :-
    (   South = [coloured(bavaria, red), coloured(baden, blue), coloured(saarland, green), coloured(rhineland, red) | East],
        East = [coloured(saxony, blue) | Map],
        maps(1, South),
        write('Map = '), write(Map), nl,
        fail
    ;   true
    ).

maps(Scarce, Map) :- states(States), colouring(States, Scarce, [], Map).

% At most Scarce states are yellow.
colouring([], _, Map, Map).
colouring([State | States], Scarce, Before, Map) :-
    colour(Colour),
    (   Colour == yellow ->
        Scarce > 0,
        Left is Scarce - 1
    ;   Left = Scarce
    ),
    \+ conflicts(State, Colour, Before),
    colouring(States, Left, [coloured(State, Colour) | Before], Map).

conflicts(State, Colour, [coloured(Other, Same) | Others]) :-
    (   Same == Colour,
        neighbours(State, Other)
    ;   conflicts(State, Colour, Others)
    ).

neighbours(A, B) :-
    (   border(A, B)
    ;   border(B, A)
    ).

colour(red).
colour(green).
colour(blue).
colour(yellow).

states([
    schleswig_holstein, hamburg, bremen, lower_saxony, mecklenburg, berlin, brandenburg, saxony_anhalt,
    north_rhine, hesse, thuringia, saxony, rhineland, saarland, baden, bavaria
]).

border(schleswig_holstein, hamburg).
border(schleswig_holstein, lower_saxony).
border(schleswig_holstein, mecklenburg).
border(hamburg, lower_saxony).
border(bremen, lower_saxony).
border(lower_saxony, mecklenburg).
border(lower_saxony, brandenburg).
border(lower_saxony, saxony_anhalt).
border(lower_saxony, north_rhine).
border(lower_saxony, hesse).
border(lower_saxony, thuringia).
border(mecklenburg, brandenburg).
border(berlin, brandenburg).
border(brandenburg, saxony_anhalt).
border(brandenburg, saxony).
border(saxony_anhalt, thuringia).
border(saxony_anhalt, saxony).
border(north_rhine, hesse).
border(north_rhine, rhineland).
border(hesse, thuringia).
border(hesse, rhineland).
border(hesse, baden).
border(hesse, bavaria).
border(thuringia, saxony).
border(thuringia, bavaria).
border(saxony, bavaria).
border(rhineland, saarland).
border(rhineland, baden).
border(baden, bavaria).
