A G(run -> A F done) & E G F run -> E G F done
