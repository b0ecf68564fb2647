// Enciphers by BouncyCastle: reads lines `kuz KEY PLAIN` or `magma KEY PLAIN`, and prints each
// with the cipher text behind it. Deciphers what it enciphered as well, and stops if that is not PLAIN.
//
//     java -cp /usr/share/java/bcprov.jar tools/CipherVectors.java < LINES
import java.io.BufferedReader;
import java.io.InputStreamReader;
import java.util.Arrays;
import org.bouncycastle.crypto.BlockCipher;
import org.bouncycastle.crypto.engines.GOST28147Engine;
import org.bouncycastle.crypto.engines.GOST3412_2015Engine;
import org.bouncycastle.crypto.params.KeyParameter;
import org.bouncycastle.crypto.params.ParametersWithSBox;
import org.bouncycastle.util.encoders.Hex;

public class CipherVectors {
    static byte[] reversed(byte[] bytes) {
        byte[] out = new byte[bytes.length];
        for (int i = 0; i < bytes.length; i++) {
            out[i] = bytes[bytes.length - 1 - i];
        }
        return out;
    }

    static byte[] block(BlockCipher engine, byte[] in) {
        byte[] out = new byte[in.length];
        engine.processBlock(in, 0, out, 0);
        return out;
    }

    static byte[] kuznyechik(boolean forward, byte[] key, byte[] in) {
        BlockCipher engine = new GOST3412_2015Engine();
        engine.init(forward, new KeyParameter(key));
        return block(engine, in);
    }

    // The engine is of the older cipher, which numbers its bytes the other way:
    // each word of the key and every block are turned about.
    static byte[] magma(boolean forward, byte[] key, byte[] in) {
        byte[] words = new byte[32];
        for (int i = 0; i < 32; i += 4) {
            System.arraycopy(reversed(Arrays.copyOfRange(key, i, i + 4)), 0, words, i, 4);
        }
        BlockCipher engine = new GOST28147Engine();
        engine.init(forward, new ParametersWithSBox(new KeyParameter(words), GOST28147Engine.getSBox("Param-Z")));
        return reversed(block(engine, reversed(in)));
    }

    static byte[] run(String cipher, boolean forward, byte[] key, byte[] in) {
        switch (cipher) {
            case "kuz":
                return kuznyechik(forward, key, in);
            case "magma":
                return magma(forward, key, in);
            default:
                throw new IllegalArgumentException(cipher);
        }
    }

    public static void main(String[] args) throws Exception {
        BufferedReader lines = new BufferedReader(new InputStreamReader(System.in));
        String line;
        while ((line = lines.readLine()) != null) {
            String[] words = line.split(" ");
            byte[] key = Hex.decode(words[1]);
            byte[] plain = Hex.decode(words[2]);
            byte[] enciphered = run(words[0], true, key, plain);
            if (!Arrays.equals(run(words[0], false, key, enciphered), plain)) {
                throw new IllegalStateException("deciphers to another block: " + line);
            }
            System.out.println(line + " " + Hex.toHexString(enciphered));
        }
    }
}
