#!/bin/sh
# Adds a client for party.toml to LemonLDAP::NG 2.16 with the portal https://login.example.org/. Run it as the user
# who owns its files, www-data on Debian. The issuer is https://login.example.org/, with the slash at its end.
set -e
cli="/usr/share/lemonldap-ng/bin/lemonldap-ng-cli -yes 1"
party=oidcRPMetaDataOptions/shop

$cli set issuerDBOpenIDConnectActivation 1 oidcServiceMetaDataIssuer https://login.example.org/
$cli addKey $party oidcRPMetaDataOptionsClientID shop-client
$cli addKey $party oidcRPMetaDataOptionsClientSecret shop-secret-shop-secret-shop-secret
$cli addKey $party oidcRPMetaDataOptionsRedirectUris https://shop.example.org/cb
$cli addKey $party oidcRPMetaDataOptionsIDTokenSignAlg HS256
