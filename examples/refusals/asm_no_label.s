start: movs r0, #5
b strat
