// The values of tickets, currencies and threads (docs/MACHINE.md), in units of which `unit` make one of base.

import { listAt } from "./lookup.js";
import { borrower, isLive } from "./status.js";

/** `value * amount / whole`, rounded down, also where the product isn't exact. */
export function part(value, amount, whole) {
  const product = value * amount;
  if (product <= Number.MAX_SAFE_INTEGER) return Math.floor(product / whole);
  return Number((BigInt(value) * BigInt(amount)) / BigInt(whole));
}

/** The value under this key, computed once; meanwhile 0, so that a cycle in a wrong text ends. */
function once(map, key, compute) {
  if (!map.has(key)) {
    map.set(key, 0);
    map.set(key, compute());
  }
  return map.get(key);
}

/** The values in a state. */
export class Values {
  tickets = new Map();
  threads = new Map();
  currencies = new Map();
  active = new Map(); // each currency's active amount
  lends = new Map(); // each lender's borrower
  lenders = new Map(); // each borrower's
  backed = new Map();
  issued = new Map(); // each currency's own tickets
  backing = new Map(); // those that fund each currency
  funding = new Map(); // those that fund each thread

  constructor(state) {
    this.state = state;
    for (const [thread, status] of state.threads) this.lend(thread, borrower(status, state.owners));
    for (const [number, ticket] of state.tickets) this.file(number, ticket);
    for (const thread of state.threads.keys()) this.ofThread(thread);
    for (const number of state.tickets.keys()) this.ofTicket(number);
    for (const currency of [0, ...this.issued.keys(), ...this.backing.keys()]) {
      this.ofCurrency(currency);
      this.activeAmount(currency);
    }
  }

  lend(thread, to) {
    if (!to || !this.state.lending) return;
    this.lends.set(thread, to);
    listAt(this.lenders, to).push(thread);
  }

  file(number, { issuer, target }) {
    listAt(this.issued, issuer).push(number);
    if (target?.currency !== undefined) listAt(this.backing, target.currency).push(number);
    if (target?.thread !== undefined) listAt(this.funding, target.thread).push(number);
  }

  isBacked(thread) {
    return once(this.backed, thread, () => {
      const status = this.state.threads.get(thread);
      return (status && isLive(status)) || (this.lends.has(thread) && this.isBacked(this.lends.get(thread)));
    });
  }

  isActive({ target }) {
    if (target === null) return false;
    return target.thread !== undefined ? this.isBacked(target.thread) : this.activeAmount(target.currency) > 0;
  }

  activeAmount(currency) {
    const { tickets } = this.state;
    return once(this.active, currency, () => sum(this.issued.get(currency), (number) =>
      this.isActive(tickets.get(number)) ? tickets.get(number).amount : 0));
  }

  ofCurrency(currency) {
    return once(this.currencies, currency, () => currency === 0
      ? this.activeAmount(0) * this.state.unit
      : sum(this.backing.get(currency), (number) => this.ofTicket(number)));
  }

  ofTicket(number) {
    return once(this.tickets, number, () => {
      const ticket = this.state.tickets.get(number);
      if (!this.isActive(ticket)) return 0;
      return part(this.ofCurrency(ticket.issuer), ticket.amount, this.activeAmount(ticket.issuer));
    });
  }

  ofThread(thread) {
    return once(this.threads, thread, () => sum(this.funding.get(thread), (number) => this.ofTicket(number))
      + sum(this.lenders.get(thread), (lender) => this.ofThread(lender)));
  }

  /** The currencies from which a chain of tickets leads to the thread or to a lender of it. */
  above(thread) {
    const above = new Set();
    const climb = (tickets = []) => {
      for (const number of tickets) {
        const { issuer } = this.state.tickets.get(number);
        if (issuer === 0 || above.has(issuer)) continue;
        above.add(issuer);
        climb(this.backing.get(issuer));
      }
    };
    const seen = new Set([thread]); // grows while it is walked
    for (const one of seen) {
      climb(this.funding.get(one));
      for (const lender of this.lenders.get(one) ?? []) seen.add(lender);
    }
    return above;
  }
}

function sum(numbers = [], of) {
  let whole = 0;
  for (const number of numbers) whole += of(number);
  return whole;
}
