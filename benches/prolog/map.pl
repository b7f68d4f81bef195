% A map over a list: points are moved and turned again and again.

main :- walk(500, 799, X, Y), write('X = '), write(X), write(', Y = '), write(Y), nl.

walk(Count, Times, X, Y) :- points(1, Count, Points), moved(Times, Points, Moved), middle(Moved, 0, 0, X, Y).

moved(Times, Points, Moved) :-
    (   Times =:= 0 ->
        Moved = Points
    ;   shift(Points, Times, 1, Shifted),
        turn(Shifted, Turned),
        Fewer is Times - 1,
        moved(Fewer, Turned, Moved)
    ).

shift([], _, _, []).
shift([point(X, Y) | Points], Right, Up, [point(X1, Y1) | Shifted]) :-
    X1 is X + Right,
    Y1 is Y + Up,
    shift(Points, Right, Up, Shifted).

% A quarter to the left.
turn([], []).
turn([point(X, Y) | Points], [point(X1, X) | Turned]) :-
    X1 is -Y,
    turn(Points, Turned).

% The sums of the places.
middle([], X, Y, X, Y).
middle([point(X, Y) | Points], BeforeX, BeforeY, SumX, SumY) :-
    X1 is BeforeX + X,
    Y1 is BeforeY + Y,
    middle(Points, X1, Y1, SumX, SumY).

points(Low, High, Points) :-
    (   Low > High ->
        Points = []
    ;   Square is Low * Low,
        Next is Low + 1,
        Points = [point(Low, Square) | Others],
        points(Next, High, Others)
    ).
