% Ways through a graph of facts: each from one town to another that passes no town twice and is not too long.

main :-
    (   way(rostock, munich, 1000, Towns, Length),
        write('Towns = '), write(Towns), write(', Length = '), write(Length), nl,
        fail
    ;   true
    ).

way(From, To, Most, Towns, Length) :-
    way_on(From, To, [From], 0, Passed, Length),
    Length =< Most,
    reverse(Passed, Towns).

way_on(Here, To, Passed, Before, Towns, Length) :-
    (   Here == To ->
        Towns = Passed,
        Length = Before
    ;   joined(Here, Next, Distance),
        \+ passed(Next, Passed),
        Behind is Before + Distance,
        way_on(Next, To, [Next | Passed], Behind, Towns, Length)
    ).

passed(Town, [Other | Others]) :-
    (   Town == Other
    ;   passed(Town, Others)
    ).

joined(A, B, Distance) :- road(A, B, Distance).
joined(A, B, Distance) :- road(B, A, Distance).

road(aachen, cologne, 70).
road(aachen, dortmund, 150).
road(berlin, dresden, 193).
road(berlin, hamburg, 289).
road(berlin, hanover, 286).
road(berlin, leipzig, 190).
road(berlin, rostock, 234).
road(bremen, dortmund, 234).
road(bremen, hamburg, 127).
road(bremen, hanover, 127).
road(cologne, dortmund, 95).
road(cologne, frankfurt, 190).
road(dortmund, hanover, 212).
road(dortmund, kassel, 165).
road(dresden, leipzig, 115).
road(dresden, nuremberg, 313).
road(erfurt, frankfurt, 260).
road(erfurt, kassel, 150).
road(erfurt, leipzig, 146).
road(erfurt, nuremberg, 218).
road(frankfurt, kassel, 193).
road(frankfurt, nuremberg, 225).
road(frankfurt, stuttgart, 205).
road(hamburg, hanover, 151).
road(hamburg, rostock, 186).
road(hanover, kassel, 166).
road(hanover, leipzig, 264).
road(leipzig, nuremberg, 279).
road(munich, nuremberg, 170).
road(munich, stuttgart, 233).
road(nuremberg, stuttgart, 208).
