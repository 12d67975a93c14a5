#!/usr/bin/env python3
"""Makes the sample of `reachable`, and works out what it must print from the rows of RFC 6890's tables and
from the rules for hosts; it does not look at our program.

    tools/reachable_expected.py sample > crates/reachable/stdin
    tools/reachable_expected.py < crates/reachable/stdin > crates/reachable/stdout

Addresses are read and written by Python's ipaddress module.
"""
import ipaddress, re, sys

V4 = {'0.0.0.0/8': False, '10.0.0.0/8': False, '100.64.0.0/10': False, '127.0.0.0/8': False, '169.254.0.0/16': False,
      '172.16.0.0/12': False, '192.0.0.0/24': False, '192.0.0.0/29': False, '192.0.2.0/24': False, '192.88.99.0/24': True,
      '192.168.0.0/16': False, '198.18.0.0/15': False, '198.51.100.0/24': False, '203.0.113.0/24': False,
      '240.0.0.0/4': False, '255.255.255.255/32': False}
V6 = {'::1/128': False, '::/128': False, '64:ff9b::/96': True, '::ffff:0:0/96': False, '100::/64': False, '2001::/23': False,
      '2001::/32': False, '2001:2::/48': False, '2001:db8::/32': False, '2001:10::/28': False, '2002::/16': None,
      'fc00::/7': False, 'fe80::/10': False}

def blocks(rows):
    return [(ipaddress.ip_network(r), g, r) for r, g in rows.items()]

def edges(rows, kind):
    """The first and last address of every row, and the addresses just outside."""
    for net, _, _ in blocks(rows):
        low, high = int(net.network_address), int(net.broadcast_address)
        top = 2 ** net.max_prefixlen - 1
        for n in (low - 1, low, high, high + 1):
            if 0 <= n <= top: yield str(kind(n))

def sample():
    label = 'a' * 63
    long = '.'.join([label] * 3 + ['b' * 61])
    assert len(long) == 253
    out = list(edges(V4, ipaddress.IPv4Address)) + list(edges(V6, ipaddress.IPv6Address))
    out += ['8.8.8.8', '224.0.0.1', '1.2.3.4', 'ff02::1', '2606:4700::1111', '2001:0DB8:0:0:8:800:200C:417A', '::FFFF:129.144.52.38',
            '::13.1.68.3', '0:0:0:0:0:ffff:129.144.52.38', '64:ff9b::192.0.2.33', '1:2:3:4:5:6:7::', '::2:3:4:5:6:7:8', '1:2:3:4:5:6:1.2.3.4',
            '1:2:3:4:5:6:7:8:9', '1:2:3:4:5:6:7', '1::2::3', ':1:2:3:4:5:6:7', '1:2:3:4:5:6:7:', '12345::', 'g::', '1:2:3:4:5:6:7:1.2.3.4', '::1.2.3',
            '1.2.3.4::', '1:::2', '01.2.3.4', '1.2.3', '1.2.3.4.5', '256.1.1.1', '1.2.3.', '+1.2.3.4', '00.0.0.0']
    # the longest addresses, and four and five zeros in a row
    out += ['0000:0000:0000:0000:0000:ffff:255.255.255.255', '2001:0db8:0000:0000:0000:0000:0000:0000', '0000::1', 'fe80::0000', '1:0000::0.0.0.0',
            '0000:0000:0000:0000:0000:ffff:255.255.255.2555', '00000::1', '::00000', '1:00000::2', '1.2.3.00000', '0000.0.0.0', '0000', '00000', '0' * 63, '0' * 64,
            'node-00000.example']
    out += ['example.com', 'EXAMPLE.com', 'a', '1', '123', '3com.com', 'a-b.c--d', 'xn--bcher-kva.example', label, label + 'a', label + '.' + label, label + 'a.com',
            'com.' + label + 'a', long, long + 'b', '.'.join([label] * 4), '-a', 'a-', 'a.-b', 'a-.b', '-', '', '.', 'a.', '.a', 'a..b', 'a_b', 'a b', 'a.b.c.', 'é.com', 'a/b', 'x' * 260]
    print('\n'.join(out))

def host(text):
    raw = text.encode()
    if len(raw) > 253: return 'none refused-2'
    good = 1 <= len(raw) and all(re.fullmatch(rb'[A-Za-z0-9]([A-Za-z0-9-]{0,61}[A-Za-z0-9])?', l) for l in raw.split(b'.'))
    return 'host ' + ('well-formed' if good else 'malformed')

def address(text):
    for kind, cls, rows in (('ipv4', ipaddress.IPv4Address, V4), ('ipv6', ipaddress.IPv6Address, V6)):
        if '%' in text: continue
        try: a = cls(text)
        except ValueError: continue
        inside = [(net, g, r) for net, g, r in blocks(rows) if a in net]
        glob = all(g is True for _, g, _ in inside)
        best = max(inside, key=lambda b: b[0].prefixlen)[2] if inside else '-'
        return f"{kind} {'global' if glob else 'not-global'} {best}"

def main():
    for line in sys.stdin.read().split('\n')[:-1]:
        print(line, address(line) or host(line))

sample() if sys.argv[1:] == ['sample'] else main()
