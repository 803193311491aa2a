module swapparty

go 1.19
