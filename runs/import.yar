import "pe"
rule a{condition:true}