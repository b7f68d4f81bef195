:- module routes.
:- import_module int, list, maybe.

% Towns, the roads between them with their lengths, and the routes that come to no town twice.
:- type town ---> ash ; birch ; cedar ; elm ; fir ; oak.
:- type route ---> route(int, list(town)).

% Each road, in one of its two directions.
:- pred road(town, town, int).
:- mode road(in, out, out) is nondet.
:- mode road(out, in, out) is nondet.
road(ash, birch, 4).
road(ash, cedar, 2).
road(birch, cedar, 1).
road(birch, elm, 5).
road(cedar, elm, 8).
road(cedar, fir, 10).
road(elm, fir, 2).

:- pred neighbour(town::in, town::out, int::out) is nondet.
neighbour(From, To, Length) :-
    (
        road(From, To, Length)
    ;
        road(To, From, Length)
    ).

:- pred route(town::in, town::in, route::out) is nondet.
route(From, To, route(Length, Towns)) :-
    go(From, To, [From], 0, Length, Towns).

% Those seen are the towns up to here, the last one first.
:- pred go(town::in, town::in, list(town)::in, int::in, int::out, list(town)::out) is nondet.
go(From, To, Seen, SoFar, Length, Towns) :-
    ( if From = To then
        Length = SoFar,
        reverse(Seen, Towns)
    else
        neighbour(From, Next, Step),
        not member(Next, Seen),
        go(Next, To, [Next | Seen], SoFar + Step, Length, Towns)
    ).

% A route that none is shorter than.
:- pred shortest(town::in, town::in, route::out) is nondet.
shortest(From, To, Best) :-
    route(From, To, Best),
    Best = route(Length, _),
    not ( route(From, To, route(Other, _)), Other < Length ).

:- pred connected(town::in, town::in) is semidet.
connected(From, To) :- route(From, To, _).

:- pred distance(town::in, town::in, maybe(int)::out) is multi.
distance(From, To, Distance) :-
    ( if shortest(From, To, route(Length, _)) then
        Distance = yes(Length)
    else
        Distance = no
    ).
