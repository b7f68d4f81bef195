:- module filter.
:- import_module int, list.

% Orders by their keys: the orders of each customer are kept from a list of all of them, and of these the ones above an amount.

:- type order ---> order(int, int). % the customer, and the amount

:- pred busy(int::in, int::in, int::in, int::out) is det.
busy(Count, Customers, Amount, Sum) :-
    orders(Count, 1, Customers, Orders),
    large_of_each(1, Customers, Amount, Orders, 0, Sum).

:- pred large_of_each(int::in, int::in, int::in, list(order)::in, int::in, int::out) is det.
large_of_each(Customer, Customers, Amount, Orders, Before, Sum) :-
    ( if Customer > Customers then
        Sum = Before
    else
        orders_of(Orders, Customer, Own),
        orders_above(Own, Amount, Large),
        total(Large, 0, Total),
        large_of_each(Customer + 1, Customers, Amount, Orders, Before + Customer * Total, Sum)
    ).

:- pred orders_of(list(order)::in, int::in, list(order)::out) is det.
orders_of([], _, []).
orders_of([Order | Orders], Customer, Kept) :-
    Order = order(Whose, _),
    ( if Whose = Customer then
        orders_of(Orders, Customer, Others),
        Kept = [Order | Others]
    else
        orders_of(Orders, Customer, Kept)
    ).

:- pred orders_above(list(order)::in, int::in, list(order)::out) is det.
orders_above([], _, []).
orders_above([Order | Orders], Amount, Kept) :-
    Order = order(_, Paid),
    ( if Paid > Amount then
        orders_above(Orders, Amount, Others),
        Kept = [Order | Others]
    else
        orders_above(Orders, Amount, Kept)
    ).

:- pred total(list(order)::in, int::in, int::out) is det.
total([], Total, Total).
total([order(_, Amount) | Orders], Before, Total) :- total(Orders, Before + Amount, Total).

% So many orders that look as if they were in no order.
:- pred orders(int::in, int::in, int::in, list(order)::out) is det.
orders(Count, Seed, Customers, Orders) :-
    ( if Count = 0 then
        Orders = []
    else
        Next = (Seed * 16807) mod 2147483647,
        orders(Count - 1, Next, Customers, Others),
        Orders = [order(Next mod Customers + 1, (Next // Customers) mod 1000) | Others]
    ).
