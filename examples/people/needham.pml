/* Needham-Schroeder public key protocol with an honest run (security lab).
 * Data: agents, nonces, keys and message kinds are all of mtype.
 */
mtype = { ok, err, msg1, msg2, msg3, keyA, keyB, agentA, agentB, nonceA, nonceB }

typedef Crypt {
	mtype key, d1, d2
}

chan network = [0] of { mtype, mtype, Crypt }
mtype partnerA, partnerB
mtype statusA = err
mtype statusB = err

#define encrypt(c, k, x, y) c.key = k; c.d1 = x; c.d2 = y
#define mine(c, k) (c.key == k)

active proctype Alice() {
	mtype pnonce
	Crypt messageAB, data

	partnerA = agentB
	d_step {
		encrypt(messageAB, keyB, agentA, nonceA)
	}
	network ! msg1, partnerA, messageAB
	network ? msg2, agentA, data
	mine(data, keyA) && data.d1 == nonceA
	pnonce = data.d2
	d_step {
		encrypt(messageAB, keyB, pnonce, 0)
	}
	network ! msg3, partnerA, messageAB
	statusA = ok
}

active proctype Bob() {
	mtype pnonce
	Crypt messageBA, data

	network ? msg1, agentB, data
	mine(data, keyB)
	partnerB = data.d1
	pnonce = data.d2
	d_step {
		encrypt(messageBA, keyA, pnonce, nonceB)
	}
	network ! msg2, partnerB, messageBA
	network ? msg3, agentB, data
	(data.key == keyB) && (data.d1 == nonceB)
	statusB = ok
}

ltl agree { [] ((statusA == ok && statusB == ok) -> (partnerA == agentB && partnerB == agentA)) }
