% A search that fails often: the weights of a list that make up a sum together.

main :-
    (   loads(28000, Load),
        write('Load = '), write(Load), nl,
        fail
    ;   true
    ).

loads(Sum, Load) :- weights(Weights), load(Weights, Sum, Load).

load([], 0, []).
load([Weight | Weights], Sum, [Weight | Load]) :-
    Weight =< Sum,
    Left is Sum - Weight,
    load(Weights, Left, Load).
load([_ | Weights], Sum, Load) :- load(Weights, Sum, Load).

weights([
    6089, 2917, 4409, 1129, 5903, 3361, 787, 5381, 2243, 4657, 1471, 6733, 3877, 911, 2741, 5167, 1877, 4073, 3019, 6421
]).
