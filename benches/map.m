:- module map.
:- import_module int, list.

% A map over a list: points are moved and turned again and again.

:- type point ---> point(int, int).

:- pred walk(int::in, int::in, int::out, int::out) is det.
walk(Count, Times, X, Y) :- points(1, Count, Points), moved(Times, Points, Moved), middle(Moved, 0, 0, X, Y).

:- pred moved(int::in, list(point)::in, list(point)::out) is det.
moved(Times, Points, Moved) :-
    ( if Times = 0 then
        Moved = Points
    else
        shift(Points, Times, 1, Shifted),
        turn(Shifted, Turned),
        moved(Times - 1, Turned, Moved)
    ).

:- pred shift(list(point)::in, int::in, int::in, list(point)::out) is det.
shift([], _, _, []).
shift([point(X, Y) | Points], Right, Up, [point(X + Right, Y + Up) | Shifted]) :- shift(Points, Right, Up, Shifted).

% A quarter to the left.
:- pred turn(list(point)::in, list(point)::out) is det.
turn([], []).
turn([point(X, Y) | Points], [point(-Y, X) | Turned]) :- turn(Points, Turned).

% The sums of the places.
:- pred middle(list(point)::in, int::in, int::in, int::out, int::out) is det.
middle([], X, Y, X, Y).
middle([point(X, Y) | Points], BeforeX, BeforeY, SumX, SumY) :- middle(Points, BeforeX + X, BeforeY + Y, SumX, SumY).

:- pred points(int::in, int::in, list(point)::out) is det.
points(Low, High, Points) :-
    ( if Low > High then
        Points = []
    else
        points(Low + 1, High, Others),
        Points = [point(Low, Low * Low) | Others]
    ).
