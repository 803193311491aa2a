module settle

go 1.19

require swapparty v0.0.0

replace swapparty => ../../../bindings/go
