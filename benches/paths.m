:- module paths.
:- import_module int, list.

% Ways through a graph of facts: each from one town to another that passes no town twice and is not too long.

:- type town
    --->    aachen ; berlin ; bremen ; cologne ; dortmund ; dresden ; erfurt ; frankfurt ; hamburg ; hanover ; kassel
    ;       leipzig ; munich ; nuremberg ; rostock ; stuttgart.

:- pred way(town::in, town::in, int::in, list(town)::out, int::out) is nondet.
way(From, To, Most, Towns, Length) :-
    way_on(From, To, [From], 0, Passed, Length),
    Length =< Most,
    reverse(Passed, Towns).

:- pred way_on(town::in, town::in, list(town)::in, int::in, list(town)::out, int::out) is nondet.
way_on(Here, To, Passed, Before, Towns, Length) :-
    ( if Here = To then
        Towns = Passed,
        Length = Before
    else
        joined(Here, Next, Distance),
        not passed(Next, Passed),
        way_on(Next, To, [Next | Passed], Before + Distance, Towns, Length)
    ).

:- pred passed(town::in, list(town)::in) is semidet.
passed(Town, [Other | Others]) :-
    (
        Town = Other
    ;
        passed(Town, Others)
    ).

:- pred joined(town::in, town::out, int::out) is nondet.
joined(A, B, Distance) :- road(A, B, Distance).
joined(A, B, Distance) :- road(B, A, Distance).

:- pred road(town, town, int).
:- mode road(in, out, out) is nondet.
:- mode road(out, in, out) is nondet.
road(aachen, cologne, 70).
road(aachen, dortmund, 150).
road(berlin, dresden, 193).
road(berlin, hamburg, 289).
road(berlin, hanover, 286).
road(berlin, leipzig, 190).
road(berlin, rostock, 234).
road(bremen, dortmund, 234).
road(bremen, hamburg, 127).
road(bremen, hanover, 127).
road(cologne, dortmund, 95).
road(cologne, frankfurt, 190).
road(dortmund, hanover, 212).
road(dortmund, kassel, 165).
road(dresden, leipzig, 115).
road(dresden, nuremberg, 313).
road(erfurt, frankfurt, 260).
road(erfurt, kassel, 150).
road(erfurt, leipzig, 146).
road(erfurt, nuremberg, 218).
road(frankfurt, kassel, 193).
road(frankfurt, nuremberg, 225).
road(frankfurt, stuttgart, 205).
road(hamburg, hanover, 151).
road(hamburg, rostock, 186).
road(hanover, kassel, 166).
road(hanover, leipzig, 264).
road(leipzig, nuremberg, 279).
road(munich, nuremberg, 170).
road(munich, stuttgart, 233).
road(nuremberg, stuttgart, 208).
