A G E X tt
