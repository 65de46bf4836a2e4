# The workflow of a study, for snakemake: a job for each run. tools/study writes study.json and the inputs, calls snakemake with
# its folder as the directory, and makes the table and the pictures of what is there then.
import json

with open("study.json", encoding="utf-8") as file:
    study = json.load(file)
runs = study["runs"]


rule all:
    input:
        [f"reports/{run}.report" for run in runs],


rule run:
    input:
        "inputs/{run}.toml",
    output:
        "reports/{run}.report",
    log:
        "logs/{run}.log",
    params:
        program=study["program"],
        command=lambda wildcards: runs[wildcards.run]["command"],
    group:
        "runs"
    shell:
        "{params.program:q} {params.command} < {input:q} > {output:q} 2> {log:q} || "
        "{{ status=$?; echo status $status >> {log:q}; exit $status; }}"
