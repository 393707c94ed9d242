#!/bin/sh
# Adds a client for party.toml to Glewlwyd 2.7 at https://login.example.org. Run it on Glewlwyd's machine, in a folder
# with the file `admin`, which has {"username": "admin", "password": ".."}. Glewlwyd seals the ID Tokens of a plugin
# under one secret, which must be the client's. So each party has a plugin of its own, and the issuer of this one is
# https://login.example.org/api/shop.
set -e
api=http://localhost:4593/api
jar=$(mktemp)
trap 'rm "$jar"' EXIT

send() {
    curl -sS --fail-with-body -b "$jar" -c "$jar" -H 'Content-Type: application/json' -d "$2" "$api/$1"
}

send auth/ "@admin"

send mod/plugin/ '{"module": "oidc", "name": "shop", "display_name": "shop", "parameters": {
    "iss": "https://login.example.org/api/shop",
    "jwt-type": "sha",
    "jwt-key-size": "256",
    "key": "shop-secret-shop-secret-shop-secret",
    "access-token-duration": 3600,
    "refresh-token-duration": 1209600,
    "code-duration": 600,
    "refresh-token-rolling": false,
    "auth-type-code-enabled": true,
    "auth-type-token-enabled": false,
    "auth-type-id-token-enabled": true,
    "auth-type-password-enabled": false,
    "auth-type-client-enabled": false,
    "auth-type-refresh-enabled": false,
    "subject-type": "public"}}'

send client/ '{"client_id": "shop-client", "name": "shop", "enabled": true, "confidential": true,
    "password": "shop-secret-shop-secret-shop-secret",
    "client_secret": "shop-secret-shop-secret-shop-secret",
    "redirect_uri": ["https://shop.example.org/cb"],
    "token_endpoint_auth_method": ["client_secret_basic"],
    "authorization_type": ["code"],
    "scope": []}'
