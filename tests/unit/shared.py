"""What several of these tests read: a cone test that the NAT of a port restricted client fails, and the nodes of it."""

TOTALS = 'total records 5 entries 2 delivered 2 handed 0 kept 0 dropped 1'
# A client asks, and its server answers from its secondary address, which the NAT lets nothing in from.
CONE_TEST = f'''\
0 0 0 tick a rs_cone #0=198.51.100.1:1024>192.0.2.1:3544/61
1 0 0 advance - done
2 0 1 deliver:0 s1 advert #1=192.0.2.2:3544>198.51.100.1:1024/117
3 0 1 deliver:1 n1 nat_closed
4 0 1 settle - done
{TOTALS}
'''
# The same where the answer is lost.
LOST_ANSWER = '''\
0 0 0 tick a rs_cone #0=198.51.100.1:1024>192.0.2.1:3544/61
1 0 0 advance - done
2 0 1 deliver:0 s1 advert #1=192.0.2.2:3544>198.51.100.1:1024/117
total records 3 entries 2 delivered 1 handed 0 kept 0 dropped 0
'''
SERVER = '[[server]]\nname = "s1"\nprimary = "192.0.2.1"\nsecondary = "192.0.2.2"\n'
RELAY = '[[relay]]\nname = "r1"\nat = "203.0.113.9:3545"\nsix = "2001:db8::9"\n\n[[native]]\nname = "h1"\nsix = "2001:db8::1"\nrelay = "r1"\n'


def nat(name, number):
    return f'[[nat]]\nname = "{name}"\nkind = "port"\nexternal = "198.51.100.{number}"\nidle = 60000\n'


def client(name, nat_name):
    return f'[[client]]\nname = "{name}"\nnat = "{nat_name}"\ninside = "10.0.0.2:4000"\nserver = "s1"\n'


def scenario(*parts, head=''):
    return f'{head}seed = 1\nevents = ["advance 0", "settle"]\n\n' + '\n'.join([SERVER, *parts])


ONE_CLIENT = scenario(nat('n1', 1), client('a', 'n1'))
# n1 and n2 behind n3, which is behind n5, and a client behind each but n3; n4 is empty.
TREE = scenario(*(nat(f'n{number}', number) for number in range(1, 6)), client('a', 'n1'), client('b', 'n2'), client('d', 'n5'),
                head='# chain: n1:n3,n2:n3,n3:n5\n')
# What is kept: a client asks and has an address, a relay has a packet for it, its NAT forgets it, and it is restarted.
STATE = '''\
- 0 n1 -
- 0 a cone - due 0
- 0 r1 due -
1 0 a cone - due 4000
1 0 n1 port 1024 inside 10.0.0.2:4000 until 60000
1 0 n1 port 1024 lets 192.0.2.1:3544 until 60000
3 1000 a qualified 2001:0:c000:201:0:fbff:39cc:9bfe due 31000
3 1000 n1 port 1024 inside 10.0.0.2:4000 until 61000
3 1000 n1 port 1024 lets 203.0.113.9:3545 until 61000
3 1000 r1 due 3000
3 1000 r1 peer 2001:0:c000:201:0:fbff:39cc:9bfe at - heard - touched 1000 tries 1000 waits 1
4 2000 n1 inside 10.0.0.2:4000 -
5 2000 a -
5 2000 a cone - due 2000
total records 6
'''
# A host's packet waits for a peer; a bubble of the peer lets it go, and it arrives. Then one fails, and one waits on.
WAITED = '''\
0 0 0 host a queued #0=198.51.100.1:1024>198.51.100.2:1024/40 #1=198.51.100.1:1024>192.0.2.1:3544/40
1 0 1 deliver:0 n2 nat_closed
2 0 2 deliver:1 s1 forward_origin #2=192.0.2.1:3544>198.51.100.2:1024/48
3 0 3 deliver:2 b indirect #3=198.51.100.2:1024>198.51.100.1:1024/40
4 0 4 deliver:3 a rule3_bubble #4=198.51.100.1:1024>198.51.100.2:1024/41
5 0 5 deliver:4 b rule3 handed/41
6 0 6 fault - done
7 0 7 host b sent !fault=198.51.100.1:1024/41
8 0 8 host b queued #5=198.51.100.2:1024>203.0.113.77:3544/56
9 0 9 host b off
total records 10 entries 6 delivered 5 handed 1 kept 0 dropped 2
'''
WAITED_STATE = '''\
- 0 n1 -
- 0 n2 -
- 0 a qualified 2001:0:c000:201:0:fbff:39cc:9bfe due 30000
- 0 b qualified 2001:0:c000:201:0:fbff:39cc:9bfd due 30000
0 0 a qualified 2001:0:c000:201:0:fbff:39cc:9bfe due 2000
0 0 a peer 2001:0:c000:201:0:fbff:39cc:9bfd at - heard - touched 0 tries 0 nonce - waits 1 held 0
0 0 n1 port 1024 inside 10.0.0.2:4000 until 60000
0 0 n1 port 1024 lets 198.51.100.2:1024 until 60000
0 0 n1 port 1024 inside 10.0.0.2:4000 until 60000
0 0 n1 port 1024 lets 192.0.2.1:3544 until 60000
3 0 b qualified 2001:0:c000:201:0:fbff:39cc:9bfd due 30000
3 0 b peer 2001:0:c000:201:0:fbff:39cc:9bfe at - heard - touched 0 tries 0 nonce - waits 0 held 0
3 0 n2 port 1024 inside 10.0.0.2:4000 until 60000
3 0 n2 port 1024 lets 198.51.100.1:1024 until 60000
4 0 a qualified 2001:0:c000:201:0:fbff:39cc:9bfe due 30000
4 0 a peer 2001:0:c000:201:0:fbff:39cc:9bfd at 198.51.100.2:1024 heard 0 touched 0 tries - nonce - waits 0 held 0
4 0 n1 port 1024 inside 10.0.0.2:4000 until 60000
4 0 n1 port 1024 lets 198.51.100.2:1024 until 60000
5 0 b qualified 2001:0:c000:201:0:fbff:39cc:9bfd due 30000
5 0 b peer 2001:0:c000:201:0:fbff:39cc:9bfe at 198.51.100.1:1024 heard 0 touched 0 tries - nonce - waits 0 held 0
7 0 b qualified 2001:0:c000:201:0:fbff:39cc:9bfd due 30000
7 0 b peer 2001:0:c000:201:0:fbff:39cc:9bfe at 198.51.100.1:1024 heard 0 touched 0 tries - nonce - waits 0 held 0
8 0 b qualified 2001:0:c000:201:0:fbff:39cc:9bfd due 2000
8 0 b peer 2001:db8::1 at - heard - touched 0 tries 0 nonce 0ebb89de3baa7bd4 waits 1 held 0
8 0 n2 port 1024 inside 10.0.0.2:4000 until 60000
8 0 n2 port 1024 lets 203.0.113.77:3544 until 60000
total records 10
'''
WAITED_FOLLOW = '''\
0 0 a queued 0 waits
4 0 a rule3_bubble 0 goes #4=198.51.100.1:1024>198.51.100.2:1024/41
5 0 b rule3 0 arrives
7 0 b sent 1 goes !fault=198.51.100.1:1024/41
8 0 b queued 2 waits
9 0 b off 3 ends
packet 0 0 a arrived 5
packet 1 7 b lost 7
packet 2 8 b waits b
packet 3 9 b lost 9
total packets 4 arrived 1 waits 1 held 0 wire 0 lost 2
'''
