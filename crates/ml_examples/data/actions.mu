<send>(mu X. ack | <wait>X) & [send][wait]!ack & [send]!ack
