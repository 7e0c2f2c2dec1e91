#!/bin/sh
# A site as one sets it up in OVN: two web servers, and a router to the world. docs/from-ovn.md brings it here.
set -e
nb="ovn-nbctl --no-leader-only --wait=sb"
net=10.0.0

$nb ls-add front
for n in 11 12; do
    $nb --may-exist lsp-add front web$n -- \
        lsp-set-addresses web$n "0a:00:00:00:00:$n $net.$n" -- \
        lsp-set-port-security web$n "0a:00:00:00:00:$n $net.$n"
done

$nb ls-add world
$nb lsp-add world up
$nb lsp-set-addresses up unknown

$nb lr-add gw
$nb set Logical_Router gw options:chassis=hv1
$nb lrp-add gw gw-front 0a:00:00:00:00:01 $net.1/24
$nb lrp-add gw gw-world 0a:00:00:00:00:02 203.0.113.1/24
for side in front world; do
    $nb lsp-add $side $side-gw
    $nb set Logical_Switch_Port $side-gw type=router options:router-port=gw-$side
    $nb lsp-set-addresses $side-gw router
done
$nb lr-route-add gw 0.0.0.0/0 203.0.113.254
$nb static-mac-binding-add gw-world 203.0.113.254 0a:00:00:00:00:fe
$nb lr-nat-add gw snat 203.0.113.1 $net.0/24

# Who may come in.
admins=$($nb create Address_Set name=admins addresses=192.0.2.5,192.0.2.6)
echo "the address set is $admins"
$nb pg-add web web11 web12
$nb acl-add web to-lport 1001 'outport == @web && ip4.src == $admins && tcp.dst == 22' allow-related
$nb acl-add web to-lport 1000 'outport == @web && ip4' drop
$nb set Logical_Switch_Port web12 enabled=false

$nb --wait=hv sync
$nb show
ovn-trace --ct=new front 'inport == "web11" && eth.src == 0a:00:00:00:00:11 && eth.dst == 0a:00:00:00:00:01 &&
    ip4.src == 10.0.0.11 && ip4.dst == 192.0.2.5 && ip.ttl == 64 && tcp.src == 40000 && tcp.dst == 443'
