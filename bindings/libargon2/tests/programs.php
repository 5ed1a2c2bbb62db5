<?php
// Runs PHP's calls over the libargon2.so.1 of this process: php programs.php make|check FILE|errors|sodium

const PASSWORDS = ['', 'pw', "p\u{e4}ss", "a\0b"];

function costs(): array
{
    $costs = [['memory_cost' => 65536, 'time_cost' => 4, 'threads' => 1]];
    foreach ([64, 1024] as $memory) {
        foreach ([1, 3] as $passes) {
            foreach ([1, 4] as $threads) {
                $costs[] = ['memory_cost' => $memory, 'time_cost' => $passes, 'threads' => $threads];
            }
        }
    }
    return $costs;
}

// A line for each encoded hash: the password in base64, and the hash.
function make(): void
{
    foreach ([PASSWORD_ARGON2I, PASSWORD_ARGON2ID] as $type) {
        foreach (costs() as $cost) {
            $password = PASSWORDS[$cost['threads'] * $cost['time_cost'] % 4];
            echo base64_encode($password), ' ', password_hash($password, $type, $cost), "\n";
        }
    }
}

// A line for each hash of a file: whether its password and another one match, and what PHP reads in it.
function check(string $file): void
{
    foreach (file($file, FILE_IGNORE_NEW_LINES) as $line) {
        [$password, $hash] = explode(' ', $line);
        $password = base64_decode($password);
        $info = password_get_info($hash);
        echo json_encode([password_verify($password, $hash), password_verify($password . '!', $hash), $info,
            password_needs_rehash($hash, $info['algo'], $info['options'])]), "\n";
    }
}

function errors(): void
{
    $wrong = [['memory_cost' => 7], ['memory_cost' => 8, 'threads' => 2], ['time_cost' => 0], ['threads' => 0],
        ['memory_cost' => 4294967295], ['threads' => 16777216, 'memory_cost' => 4294967295]];
    foreach ($wrong as $cost) {
        try {
            $hash = @password_hash('x', PASSWORD_ARGON2ID, $cost);
            echo json_encode($hash), ' ', error_get_last()['message'] ?? '', "\n";
        } catch (Throwable $error) {
            echo get_class($error), ': ', $error->getMessage(), "\n";
        }
    }
    $damaged = ['', '$argon2id$', '$argon2id$v=19$m=64,t=1,p=1$c29tZXNhbHQ$AAAA',
        '$argon2id$v=19$m=64,t=0,p=1$c29tZXNhbHQ$AAAAAAAA'];
    foreach ($damaged as $hash) {
        echo json_encode(password_verify('x', $hash)), "\n";
    }
}

// Checks that libsodium and the library accept each other's hashes of a password, and reject another password.
function sodium(): void
{
    foreach (array_slice(PASSWORDS, 1) as $password) {
        $sodium = sodium_crypto_pwhash_str($password, 3, 8 << 20);
        $own = password_hash($password, PASSWORD_ARGON2ID, ['memory_cost' => 8 << 10, 'time_cost' => 3, 'threads' => 1]);
        echo json_encode([password_verify($password, $sodium), password_verify($password . '!', $sodium),
            sodium_crypto_pwhash_str_verify($own, $password), sodium_crypto_pwhash_str_verify($own, $password . '!'),
            sodium_crypto_pwhash_str_needs_rehash($own, 3, 8 << 20)]), "\n";
    }
}

match ($argv[1]) {
    'make' => make(),
    'check' => check($argv[2]),
    'errors' => errors(),
    'sodium' => sodium(),
};
