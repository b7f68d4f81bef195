% Orders by their keys: the orders of each customer are kept from a list of all of them, and of these the ones above an amount.

main :- busy(8000, 100, 500, Sum), write('Sum = '), write(Sum), nl.

busy(Count, Customers, Amount, Sum) :-
    orders(Count, 1, Customers, Orders),
    large_of_each(1, Customers, Amount, Orders, 0, Sum).

large_of_each(Customer, Customers, Amount, Orders, Before, Sum) :-
    (   Customer > Customers ->
        Sum = Before
    ;   orders_of(Orders, Customer, Own),
        orders_above(Own, Amount, Large),
        total(Large, 0, Total),
        Next is Customer + 1,
        Behind is Before + Customer * Total,
        large_of_each(Next, Customers, Amount, Orders, Behind, Sum)
    ).

orders_of([], _, []).
orders_of([Order | Orders], Customer, Kept) :-
    Order = order(Whose, _),
    (   Whose =:= Customer ->
        Kept = [Order | Others],
        orders_of(Orders, Customer, Others)
    ;   orders_of(Orders, Customer, Kept)
    ).

orders_above([], _, []).
orders_above([Order | Orders], Amount, Kept) :-
    Order = order(_, Paid),
    (   Paid > Amount ->
        Kept = [Order | Others],
        orders_above(Orders, Amount, Others)
    ;   orders_above(Orders, Amount, Kept)
    ).

total([], Total, Total).
total([order(_, Amount) | Orders], Before, Total) :-
    Next is Before + Amount,
    total(Orders, Next, Total).

% So many orders that look as if they were in no order.
orders(Count, Seed, Customers, Orders) :-
    (   Count =:= 0 ->
        Orders = []
    ;   Next is (Seed * 16807) mod 2147483647,
        Customer is Next mod Customers + 1,
        Amount is (Next // Customers) mod 1000,
        Fewer is Count - 1,
        Orders = [order(Customer, Amount) | Others],
        orders(Fewer, Next, Customers, Others)
    ).
