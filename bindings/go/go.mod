module esdk.invalid/esdk

go 1.19
