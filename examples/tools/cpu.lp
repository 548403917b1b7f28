# Two hosts in line protocol. The last line changes one field of the first.
cpu,host=alpha,dc=eu\ west load=12i,mem=2048u,up=t 1538577485000000000
cpu,host=beta,dc=us load=7i,mem=1024u,up=true 1538577485000000000
cpu,host=alpha,dc=eu\ west load=15i 1538577495000000000
disk,host=alpha used=71.5 1538577485000000000
cpu,host=alpha,dc=eu\ west up=false 1538577485000000000
