// A call inside a call is read three times: 13 calls within each other take more than a million of fuel.
rule calls {
  condition:
    f(f(f(f(f(f(f(f(f(f(f(f(f(1)))))))))))))
}

rule behind {
  condition:
    true
}
